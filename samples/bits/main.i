extern int length;
void put_bits(unsigned value, int count);
void finish(void);
unsigned get_bits(int count);
int getchar(void); int putchar(int c);
static const char common[] = " etaoin";

static void code(int c) {
  int i;
  for (i = 0; i < 7; i++)
    if (common[i] == c) { put_bits(i, 3); return; }
  put_bits(7, 3);
  put_bits(c & 255, 8);
}

static int decode(void) {
  unsigned i = get_bits(3);
  return i < 7 ? common[i] : (int)get_bits(8);
}

int main(void) {
  int c, count = 0;
  while ((c = getchar()) != -1) { code(c); count++; }
  finish();
  while (count-- > 0) putchar(decode());
  return length & 127;
}
