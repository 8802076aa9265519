unsigned table[256];

void make_table(void) {
  unsigned i, k, r;
  for (i = 0; i < 256; i++) {
    r = i;
    for (k = 0; k < 8; k++) r = r & 1 ? r >> 1 ^ 0xedb88320u : r >> 1;
    table[i] = r;
  }
}
