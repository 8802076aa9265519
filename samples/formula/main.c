/* A calculator: each line of the input is an expression, or begins with a colon and asks for something. */
#include "calc.h"

#define AS_TEXT(name, text) text,
static const char *const texts[] = { FAULTS(AS_TEXT) 0 };

static unsigned base = 10;

void put_text(const char *text)
{
    while (*text != 0)
        PUT(*text++);
}

static void put_digits(unsigned n, unsigned in)
{
    if (n >= in)
        put_digits(n / in, in);
    PUT("0123456789abcdef"[n % in]);
}

void put_number(int n, unsigned in)
{
    switch (in) {
    case 16:
        put_text("0x");
        put_digits((unsigned)n, in);
        break;
    case 8:
        PUT('0');
        put_digits((unsigned)n, in);
        break;
    default:
        if (n < 0) {
            PUT('-');
            put_digits(-(unsigned)n, in);
        } else
            put_digits((unsigned)n, in);
    }
}

/* What is asked for behind the colon: d, o and x for a base, n for all names. */
static void ask(void)
{
    int column = next + 1;

    switch (line[next++]) {
#define BASE(letter, number) case letter: base = (number); break
    BASE('d', 10);
    BASE('o', 8);
    BASE('x', 16);
#undef BASE
    case 'n':
        tell_names(base);
        break;
    default:
        FAIL(NO_TOKEN, column);
    }
}

static void tell_fault(void)
{
    int i;

    for (i = 1; i < fault_at; i++)
        PUT(' ');
    TELL((PUT_TWO('^', ' '), put_text(texts[fault])));
}

static int is_empty(void)
{
    int i = 0;

    while (IS_BLANK(line[i]))
        i++;
    return line[i] == 0;
}

int main(void)
{
    int faults = 0;

    while (read_line()) {
        if (is_empty())
            continue;
        TELL(put_text(line));
        if (line[0] == ':') {
            next = 1;
            ask();
        } else {
            value v = evaluate();

            if (fault == NO_FAULT)
                TELL((put_text("  "), put_number(v, base)));
        }
        if (fault != NO_FAULT) {
            tell_fault();
            faults++;
        }
    }
    return faults;
}
