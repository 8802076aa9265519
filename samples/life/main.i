extern unsigned char cells[2][34][34];
extern int now;
void turn(void);
int putchar(int c);
static const char start[] = ".X...\n..X..\nXXX..\n....X\n...XX\n";

int main(void) {
  int i = 1, j = 1, count = 0;
  const char *p;
  for (p = start; *p != 0; p++)
    if (*p == '\n') { i++; j = 1; }
    else cells[now][i][j++] = *p == 'X';
  for (i = 0; i < 20; i++) turn();
  for (i = 1; i <= 32; i++) {
    for (j = 1; j <= 32; j++) {
      putchar(cells[now][i][j] ? 'X' : '.');
      count += cells[now][i][j];
    }
    putchar('\n');
  }
  return count;
}
