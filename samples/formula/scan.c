/* Lines and their tokens. */
#include "calc.h"

char line[LINE_LENGTH + 1];
int next;
enum fault fault;
int fault_at;

struct row { char first; char second; };

#define AS_ROW(name, level, first, second, result) { first, second },
static const struct row rows[] = { OPERATORS(AS_ROW) { 0, 0 } };

void begin_line(void)
{
    next = 0;
    fault = NO_FAULT;
    fault_at = 0;
}

/* Reads a line without its end; whether there is one. What is too long is left out. */
int read_line(void)
{
    int c = getchar();
    int length = 0;

    if (c == END)
        return 0;
    while (c != END && c != NEWLINE) {
        if (length < LINE_LENGTH)
            line[length++] = (char)c;
        c = getchar();
    }
    line[length] = 0;
    begin_line();
    return 1;
}

static int digit_of(int c)
{
    if (IS_DIGIT(c))
        return c - '0';
    if (c >= 'a' && c <= 'f')
        return c - 'a' + 10;
    if (c >= 'A' && c <= 'F')
        return c - 'A' + 10;
    return 99;
}

/* A number: decimal, octal behind 0, hexadecimal behind 0x. */
static void scan_number(struct token *t)
{
    unsigned base = 10;
    unsigned n = 0;

    t->kind = NUMBER;
    if (line[next] == '0') {
        base = 8;
        next++;
        if (line[next] == 'x' || line[next] == 'X') {
            base = 16;
            next++;
        }
    }
    while (digit_of(line[next]) < (int)base) {
        if (n > (0xffffffff - digit_of(line[next])) / base)
            FAIL(LONG_NUMBER, t->at);
        n = n * base + digit_of(line[next]);
        next++;
    }
    t->number = (value)n;
}

static void scan_name(struct token *t)
{
    int length = 0;

    t->kind = NAME;
    while (IS_LETTER(line[next]) || IS_DIGIT(line[next])) {
        if (length < NAME_LENGTH)
            t->name[length++] = line[next];
        else
            FAIL(LONG_NAME, t->at);
        next++;
    }
    t->name[length] = 0;
}

/* Those of two characters stand before those of one that begin so. */
static void scan_operator(struct token *t)
{
    int i;

    for (i = 0; i < OPERATOR_COUNT; i++) {
        if (line[next] != rows[i].first)
            continue;
        if (rows[i].second != 0 && line[next + 1] != rows[i].second)
            continue;
        t->kind = OPERATOR;
        t->operator = (enum operator)i;
        next += rows[i].second != 0 ? 2 : 1;
        return;
    }
    t->kind = STRANGE;
    FAIL(NO_TOKEN, t->at);
    next++;
}

void scan(struct token *t)
{
    while (IS_BLANK(line[next]))
        next++;
    t->at = next + 1;
    t->number = 0;
    switch (line[next]) {
    case 0:
        t->kind = NOTHING;
        break;
    case '(':
        t->kind = OPEN;
        next++;
        break;
    case ')':
        t->kind = CLOSE;
        next++;
        break;
    default:
        if (IS_DIGIT(line[next]))
            scan_number(t);
        else if (IS_LETTER(line[next]))
            scan_name(t);
        else
            scan_operator(t);
    }
}
