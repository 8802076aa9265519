extern long compared;
void sort(int *first, int count, int (*before)(int, int));
int putchar(int c);
static int numbers[1000];
static unsigned seed = 1;

static int less(int a, int b) { return a < b; }
static int last_digit(int a, int b) { return a % 10 != b % 10 ? a % 10 < b % 10 : a < b; }

static void print(int n) {
  if (n > 9) print(n / 10);
  putchar('0' + n % 10);
}

static void show(void) {
  int i;
  for (i = 0; i < 1000; i += 111) { print(numbers[i]); putchar(i < 999 ? ' ' : '\n'); }
}

int main(void) {
  int i;
  for (i = 0; i < 1000; i++) {
    seed = seed * 1664525u + 1013904223u;
    numbers[i] = seed >> 16 & 32767;
  }
  sort(numbers, 1000, less);
  show();
  sort(numbers, 1000, last_digit);
  show();
  return compared & 127;
}
