static unsigned buffer;
static int held;
unsigned char bytes[4096];
int length, place;

void put_bits(unsigned value, int count) {
  buffer = buffer << count | value;
  held += count;
  while (held >= 8) { held -= 8; bytes[length++] = buffer >> held & 255; }
}

void finish(void) {
  if (held > 0) put_bits(0, 8 - held);
  held = 0;
}

unsigned get_bits(int count) {
  while (held < count) { buffer = buffer << 8 | bytes[place++]; held += 8; }
  held -= count;
  return buffer >> held & ((1u << count) - 1);
}
