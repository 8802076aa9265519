extern unsigned crc, low, high;
void make_table(void);
void add(int c);
int getchar(void); int putchar(int c);

static void print(unsigned n) {
  int i;
  for (i = 28; i >= 0; i -= 4) putchar("0123456789abcdef"[n >> i & 15]);
  putchar('\n');
}

int main(void) {
  int c, i;
  make_table();
  while ((c = getchar()) != -1) add(c);
  for (i = 0; i < 5000; i++) add(i & 255);
  print(~crc);
  print(high << 16 | low);
  return 0;
}
