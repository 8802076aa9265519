long compared;

static void exchange(int *a, int *b) { int t = *a; *a = *b; *b = t; }

void sort(int *first, int count, int (*before)(int, int)) {
  int *p = first, *last = first;
  if (count < 2) return;
  exchange(first, first + count / 2);
  while (++p < first + count) {
    compared++;
    if ((*before)(*p, *first)) exchange(p, ++last);
  }
  exchange(first, last);
  sort(first, last - first, before);
  sort(last + 1, first + count - (last + 1), before);
}
