extern int depth; extern int ops;
struct op { char sign; int (*run)(int, int); };
extern struct op table[];
void push(int v); int pop(void); int getchar(void); int putchar(int);
static void print(int v) {
  if (v < 0) { putchar('-'); v = -v; }
  if (v > 9) print(v / 10);
  putchar('0' + v % 10);
}
int main(void) {
  int c = getchar();
  while (c != -1) {
    if (c >= '0' && c <= '9') {
      int n = 0;
      while (c >= '0' && c <= '9') { n = n * 10 + (c - '0'); c = getchar(); }
      push(n);
    } else {
      int i;
      for (i = 0; i < ops; i++)
        if (table[i].sign == c && depth >= 2) {
          int b = pop(); int a = pop(); push((*table[i].run)(a, b));
        }
      if (c == '\n' && depth > 0) { print(pop()); putchar('\n'); }
      c = getchar();
    }
  }
  return 0;
}
