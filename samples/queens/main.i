extern int size, solutions;
void place(int row);
int putchar(int c);

static void print(int n) {
  if (n > 9) print(n / 10);
  putchar('0' + n % 10);
}

int main(void) {
  for (size = 4; size <= 7; size++) {
    solutions = 0;
    place(0);
    print(size); putchar(' '); print(solutions); putchar('\n');
  }
  return 0;
}
