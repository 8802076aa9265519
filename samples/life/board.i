unsigned char cells[2][34][34];
int now;

int alive(int row, int column) {
  int n = 0, i, j;
  for (i = row - 1; i <= row + 1; i++)
    for (j = column - 1; j <= column + 1; j++)
      n += cells[now][i][j];
  return n == 3 || (n == 4 && cells[now][row][column]);
}

void turn(void) {
  int i, j;
  for (i = 1; i <= 32; i++)
    for (j = 1; j <= 32; j++)
      cells[1 - now][i][j] = alive(i, j);
  now = 1 - now;
}
