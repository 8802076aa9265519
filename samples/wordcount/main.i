extern int lines, words, characters;
void count(int c);
int getchar(void); int putchar(int c);

static void print(int n) {
  if (n > 9) print(n / 10);
  putchar('0' + n % 10);
}

int main(void) {
  int c;
  while ((c = getchar()) != -1) count(c);
  print(lines); putchar(' '); print(words); putchar(' '); print(characters); putchar('\n');
  return 0;
}
