/* Values: what operators make of them, and the names that have some. */
#include "calc.h"

struct variable { char name[NAME_LENGTH + 1]; value value_is; };

static struct variable variables[NAMES];
static int count;

value divided_by_zero(void)
{
#if CHECKED
    FAIL(BY_ZERO, next);
#endif
    return 0;
}

#ifdef TRACE
#define TOLD(name) PUT_TWO('@', '0' + (name) % 10)
#else
#define TOLD(name) ((void)0)
#endif

#define AS_CASE(name, level, first, second, result) case name: TOLD(name); return (result);

value apply(enum operator o, value a, value b)
{
    switch (o) {
    OPERATORS(AS_CASE)
    default:
        return 0;
    }
}

#define AS_LEVEL(name, level, first, second, result) level,
static const signed char levels[] = { OPERATORS(AS_LEVEL) -1 };

int level_of(enum operator o)
{
    return levels[o];
}

static int is_same(const char *a, const char *b)
{
    while (*a != 0 && *a == *b) {
        a++;
        b++;
    }
    return *a == *b;
}

/* Where the value of a name stands, or a null pointer, with a fault. */
value *place_of(const char *name, int is_new, int column)
{
    int i;
    int k;

    for (i = 0; i < count; i++)
        if (is_same(variables[i].name, name))
            return &variables[i].value_is;
    if (!is_new) {
        FAIL(NO_VALUE, column);
        return 0;
    }
    if (count == NAMES) {
        FAIL(TOO_MANY, column);
        return 0;
    }
    for (k = 0; name[k] != 0; k++)
        variables[count].name[k] = name[k];
    variables[count].name[k] = 0;
    variables[count].value_is = 0;
    return &variables[count++].value_is;
}

void tell_names(unsigned base)
{
    int i;

    for (i = 0; i < count; i++)
        TELL((put_text(variables[i].name), put_text(" = "), put_number(variables[i].value_is, base)));
}
