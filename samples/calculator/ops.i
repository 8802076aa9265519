static int add(int a, int b) { return a + b; }
static int sub(int a, int b) { return a - b; }
static int mul(int a, int b) { return a * b; }
struct op { char sign; int (*run)(int, int); };
struct op table[] = { { '+', add }, { '-', sub }, { '*', mul } };
int ops = sizeof table / sizeof table[0];
