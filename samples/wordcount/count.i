int lines, words, characters;
static int inside;

void count(int c) {
  characters++;
  if (c == '\n') lines++;
  if (c == ' ' || c == '\t' || c == '\n') inside = 0;
  else if (!inside) { inside = 1; words++; }
}
