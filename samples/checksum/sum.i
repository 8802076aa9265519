extern unsigned table[256];
unsigned crc = 0xffffffffu, low = 1, high;

void add(int c) {
  crc = table[(crc ^ (unsigned)c) & 255] ^ crc >> 8;
  low = (low + (unsigned)c) % 65521u;
  high = (high + low) % 65521u;
}
