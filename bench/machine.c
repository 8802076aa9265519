/* An interpreter of the same instruction table, written straight from it, as a measure of speed and as a
   second reading of the rules. Usage: machine STEPS < words in hexadecimal, one a line; or machine STEPS IMAGE, which
   runs an image file with the standard streams and ends with the program's status. Compiled with -DCOUNTS and called as
   machine STEPS IMAGE END it tells on standard error what was executed of the words below the address END: instructions,
   loads, stores; words in the delay slots of branches but for returns and calls through registers, and NOPs among them. */
#include <stdint.h>
#include <stdio.h>
#include <stdlib.h>
#include <string.h>

#define SIZE 67108864u
enum { ILLEGAL, UNALIGNED, RANGE, TEXTWRITE, BADBRANCH, BADBREAK };
static uint8_t *mem;
static uint32_t gr[32], front, back, sar, text_end, data_start;
static int nullify;

static int32_t low(uint32_t f, int w) {
    uint32_t half = 1u << (w - 1), v = f >> 1;
    return (f & 1) ? (int32_t)v - (int32_t)half : (int32_t)v;
}
static uint32_t be(uint32_t a) { return (uint32_t)mem[a] << 24 | mem[a + 1] << 16 | mem[a + 2] << 8 | mem[a + 3]; }
static int cond(unsigned c, uint32_t a, uint32_t b) {
    switch (c) {
    case 1: return a == b;
    case 2: return (int32_t)a < (int32_t)b;
    case 3: return (int32_t)a <= (int32_t)b;
    case 4: return a < b;
    case 5: return a <= b;
    }
    return 0;
}

/* the kind of halt, or -1 */
static int fault(uint32_t a, uint32_t n, int store) {
    if (a % n) return UNALIGNED;
    if (a < 4096 || a > SIZE - n) return RANGE;
    if (store && a < data_start) return TEXTWRITE;
    return -1;
}

#ifdef COUNTS
static uint64_t instructions, loads, stores, slots, nops;
static uint32_t counted_below;
static int in_slot;
static void count(uint32_t at, uint32_t w) {
    uint32_t op = w >> 26;
    if (at >= counted_below) { in_slot = 0; return; }
    instructions++;
    loads += op == 0x10 || op == 0x11 || op == 0x12;
    stores += op == 0x18 || op == 0x19 || op == 0x1a;
    slots += in_slot;
    nops += in_slot && w == 0x08000240;
    in_slot = op == 0x20 || op == 0x22 || (op == 0x3a && (w >> 13 & 7) == 0);
}
#define COUNT(at, w) count(at, w)
#define PASSED_OVER() (in_slot = 0)
#else
#define COUNT(at, w) ((void)0)
#define PASSED_OVER() ((void)0)
#endif

#define HALT(k) do { *kind = (k); *at = front; *taken = n + 1; return 'H'; } while (0)
#define GO(next, nul) do { uint32_t x_ = (next); front = back; back = x_; nullify = (nul); } while (0)
#define SET(t, v) do { uint32_t v_ = (v); GO(back + 4, 0); if (t) gr[t] = v_; } while (0)
#define ACCESS(a, size, store) do { int k_ = fault(a, size, store); if (k_ >= 0) HALT(k_); } while (0)

static int run(uint64_t budget, int *kind, uint32_t *at, uint64_t *taken, int echo) {
    for (uint64_t n = 0; n < budget; n++) {
        if (front % 4 || front < 4096 || front >= text_end) HALT(BADBRANCH);
        if (nullify) { PASSED_OVER(); GO(back + 4, 0); continue; }
        uint32_t w = be(front), op = w >> 26, b = w >> 21 & 31, r = w >> 16 & 31, t = w & 31, a;
        COUNT(front, w);
        switch (op) {
        case 0x10: case 0x11: case 0x12: case 0x0d: case 0x18: case 0x19: case 0x1a:
            if (w & 0xc000) HALT(ILLEGAL);
            a = gr[b] + (uint32_t)low(w & 0x3fff, 14);
            switch (op) {
            case 0x0d: SET(r, a); break;
            case 0x10: ACCESS(a, 1, 0); SET(r, mem[a]); break;
            case 0x11: ACCESS(a, 2, 0); SET(r, (uint32_t)mem[a] << 8 | mem[a + 1]); break;
            case 0x12: ACCESS(a, 4, 0); SET(r, be(a)); break;
            case 0x18: ACCESS(a, 1, 1); mem[a] = gr[r]; GO(back + 4, 0); break;
            case 0x19: ACCESS(a, 2, 1); mem[a] = gr[r] >> 8; mem[a + 1] = gr[r]; GO(back + 4, 0); break;
            case 0x1a: ACCESS(a, 4, 1);
                mem[a] = gr[r] >> 24; mem[a + 1] = gr[r] >> 16; mem[a + 2] = gr[r] >> 8; mem[a + 3] = gr[r];
                GO(back + 4, 0); break;
            }
            break;
        case 0x08: {
            uint32_t f = w & 0x1fffff;
            SET(b, ((f & 1) << 20 | (f >> 1 & 0x7ff) << 9 | (f >> 14 & 3) << 7 | (f >> 16 & 31) << 2 | (f >> 12 & 3)) << 11);
            break; }
        case 0x02: {
            uint32_t ext = w >> 5 & 0x7f, x = gr[r], y = gr[b];
            if (ext == 0x44) {
                unsigned c = w >> 13 & 7;
                if (c > 5) HALT(ILLEGAL);
                int h = cond(c, x, y) ^ (w >> 12 & 1);
                GO(back + 4, h); if (t) gr[t] = 0;
                break;
            }
            if (w & 0xf000) HALT(ILLEGAL);
            switch (ext) {
            case 0x10: SET(t, x & y); break;
            case 0x12: SET(t, x | y); break;
            case 0x14: SET(t, x ^ y); break;
            case 0x20: SET(t, x - y); break;
            case 0x50: SET(t, x + y); break;
            default: HALT(ILLEGAL);
            }
            break; }
        case 0x25:
            if (w & 0xf800) HALT(ILLEGAL);
            SET(r, (uint32_t)low(w & 0x7ff, 11) - gr[b]);
            break;
        case 0x34: {
            uint32_t ext = w >> 10 & 0x3f, p = w >> 5 & 31, len = 32 - t;
            if (ext == 0) {
                if (p) HALT(ILLEGAL);
                SET(t, (uint32_t)(((uint64_t)gr[r] << 32 | gr[b]) >> sar));
            } else if (ext == 6 || ext == 7) {
                if (len > p + 1) HALT(ILLEGAL);
                uint32_t v = gr[b] >> (31 - p);
                SET(r, ext == 6 ? v << (32 - len) >> (32 - len) : (uint32_t)((int32_t)(v << (32 - len)) >> (32 - len)));
            } else HALT(ILLEGAL);
            break; }
        case 0x35: {
            uint32_t ext = w >> 10 & 0x3f, p = 31 - (w >> 5 & 31), len = 32 - t;
            if (ext != 2 || len > p + 1) HALT(ILLEGAL);
            SET(b, gr[r] << (32 - len) >> (32 - len) << (31 - p));
            break; }
        case 0x20: case 0x22: {
            unsigned c = w >> 13 & 7;
            if (c > 5 || w & 2) HALT(ILLEGAL);
            int h = cond(c, gr[r], gr[b]) ^ (op == 0x22);
            int32_t d = (int32_t)(w >> 3 & 0x3ff) | (w >> 2 & 1) << 10;
            if (w & 1) d -= 2048;
            GO(h ? front + 8 + 4u * (uint32_t)d : back + 4, 0);
            break; }
        case 0x3a:
            if ((w >> 13 & 7) == 0) {
                int32_t d = (int32_t)(w >> 3 & 0x3ff) | (w >> 2 & 1) << 10 | (w >> 16 & 31) << 11;
                if (w & 1) d -= 65536;
                uint32_t link = back + 4;
                GO(front + 8 + 4u * (uint32_t)d, w >> 1 & 1);
                if (b) gr[b] = link;
            } else if ((w & 0x1ffffd) == 0xc000) {
                GO(gr[b], w >> 1 & 1);
            } else HALT(ILLEGAL);
            break;
        case 0x39:
            if ((w & 0x1ffffd) != 0x2000) HALT(ILLEGAL);
            { uint32_t link = back + 4, to = gr[b]; GO(to, w >> 1 & 1); gr[31] = link; }
            break;
        case 0x00:
            if ((w & 0x1fe0) == 0) {
                uint32_t i13 = w >> 13 & 0x1fff;
                if (t == 0 && i13 == 1) { int c = echo ? getchar() : -1; SET(28, (uint32_t)c); }
                else if (t == 0 && i13 == 2) { if (echo) putchar(gr[26] & 255); SET(28, gr[26] & 255); }
                else if (t == 0 && i13 == 3) { *at = gr[26] & 255; *taken = n + 1; return 'E'; }
                else if (t == 0 && i13 == 4) { *taken = n + 1; return 'S'; }
                else HALT(BADBREAK);
            } else if ((w & 0xffe0ffff) == 0x01601840) {
                sar = gr[r] & 31; GO(back + 4, 0);
            } else HALT(ILLEGAL);
            break;
        default: HALT(ILLEGAL);
        }
    }
    *taken = budget;
    return 'P';
}

/* the words and the data of an image file, whose digest is not looked at */
static uint32_t load(const char *path) {
    static uint8_t file[SIZE];
    FILE *f = fopen(path, "rb");
    size_t length = f ? fread(file, 1, SIZE, f) : 0, at = 12;
#define NUMBER() (at += 4, (uint32_t)file[at - 4] << 24 | file[at - 3] << 16 | file[at - 2] << 8 | file[at - 1])
    if (length < 64) { fprintf(stderr, "machine: no image\n"); exit(2); }
    uint32_t entry = NUMBER();
    at += 8;
    uint32_t words = NUMBER();
    memcpy(mem + 4096, file + at, 4 * (size_t)words);
    at += 4 * (size_t)words;
    text_end = 4096 + 4 * words;
    data_start = (text_end + 7) / 8 * 8;
    uint32_t size = NUMBER(), items = NUMBER();
    for (uint32_t i = 0; i < items; i++) {
        uint32_t offset = NUMBER(), count = NUMBER();
        memcpy(mem + data_start + offset, file + at, count);
        at += count;
    }
    gr[30] = (data_start + size + 63) / 64 * 64 + 64;
    return entry;
}

static int run_image(uint64_t budget, const char *path) {
    int kind = 0;
    uint32_t at = 0;
    uint64_t taken = 0;
    front = load(path);
    back = front + 4;
    int end = run(budget, &kind, &at, &taken, 1);
#ifdef COUNTS
    fprintf(stderr, "%llu %llu %llu %llu %llu\n", (unsigned long long)instructions, (unsigned long long)loads,
            (unsigned long long)stores, (unsigned long long)slots, (unsigned long long)nops);
#else
    fprintf(stderr, "%llu steps\n", (unsigned long long)taken);
#endif
    return end == 'E' ? (int)at : end == 'S' ? 115 : end == 'P' ? 116 : 117;
}

int main(int argc, char **argv) {
    static const char *names[] = { "Illegal", "Unaligned", "OutOfMemoryRange", "TextWrite", "BadBranch", "BadBreak" };
    uint64_t budget = argc > 1 ? strtoull(argv[1], 0, 10) : 100000000, taken = 0;
    uint32_t w, n = 0, at = 0;
    int kind = 0;
    mem = calloc(SIZE, 1);
#ifdef COUNTS
    if (argc < 4) return 2;
    counted_below = (uint32_t)strtoul(argv[3], 0, 10);
#endif
    if (argc > 2) return run_image(budget, argv[2]);
    while (scanf("%x", &w) == 1) {
        uint32_t a = 4096 + 4 * n++;
        mem[a] = w >> 24; mem[a + 1] = w >> 16; mem[a + 2] = w >> 8; mem[a + 3] = w;
    }
    text_end = 4096 + 4 * n;
    data_start = (text_end + 7) / 8 * 8;
    gr[30] = (data_start + 63) / 64 * 64 + 64;
    front = 4096; back = 4100;
    int end = run(budget, &kind, &at, &taken, 0);
    if (end == 'H') printf("Halted %s %u", names[kind], at);
    else if (end == 'E') printf("Ended %u", at);
    else printf("%s", end == 'S' ? "StackStop" : "Spent");
    printf(" %llu %u", (unsigned long long)taken, front);
    uint32_t sum = 0;
    for (int i = 0; i < 32; i++) sum = sum * 31 + gr[i];
    for (uint32_t a = 4096; a < 8192 + 4096; a += 4) sum = sum * 31 + be(a);
    printf(" %08x\n", sum);
    return 0;
}
