int size, solutions;
static int columns[16], rising[32], falling[32];

static int is_free(int row, int column) {
  return !columns[column] && !rising[row + column] && !falling[row - column + size];
}

static void put(int row, int column, int there) {
  columns[column] = rising[row + column] = falling[row - column + size] = there;
}

void place(int row) {
  int column;
  if (row == size) { solutions++; return; }
  for (column = 0; column < size; column++)
    if (is_free(row, column)) {
      put(row, column, 1);
      place(row + 1);
      put(row, column, 0);
    }
}
