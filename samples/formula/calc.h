/* What the modules of the calculator share. */
#ifndef CALC_H
#define CALC_H

#include "config.h"
#include <io.h>

typedef int value;

/* What a line is made of. */
enum kind { NOTHING, NUMBER, NAME, OPERATOR, OPEN, CLOSE, STRANGE };

/* The operators with two operands: a name, how tightly it binds, its one or two characters, and what it gives. */
#define OPERATORS(F) \
    F(EITHER, 1, '|', '|', a != 0 || b != 0) \
    F(BOTH, 2, '&', '&', a != 0 && b != 0) \
    F(BIT_OR, 3, '|', 0, a | b) \
    F(BIT_EXCLUSIVE, 4, '^', 0, a ^ b) \
    F(BIT_AND, 5, '&', 0, a & b) \
    F(EQUAL, 6, '=', '=', a == b) \
    F(UNEQUAL, 6, '!', '=', a != b) \
    F(AT_MOST, 7, '<', '=', a <= b) \
    F(AT_LEAST, 7, '>', '=', a >= b) \
    F(LEFT, 8, '<', '<', SHIFT(a, b, <<)) \
    F(RIGHT, 8, '>', '>', SHIFT(a, b, >>)) \
    F(BELOW, 7, '<', 0, a < b) \
    F(ABOVE, 7, '>', 0, a > b) \
    F(PLUS, 9, '+', 0, WRAPPED(a, b, +)) \
    F(MINUS, 9, '-', 0, WRAPPED(a, b, -)) \
    F(TIMES, 10, '*', 0, WRAPPED(a, b, *)) \
    F(OVER, 10, '/', 0, DIVISION(a, b, /, WRAPPED(0, a, -))) \
    F(REST, 10, '%', 0, DIVISION(a, b, %, 0)) \
    F(GIVES, 0, '=', 0, b)

#define AS_NAME(name, level, first, second, result) name,
enum operator { OPERATORS(AS_NAME) OPERATOR_COUNT };
#undef AS_NAME

struct token {
    enum kind kind;
    int at;                     /* the column, counted from 1 */
    value number;
    enum operator operator;
    char name[NAME_LENGTH + 1];
};

/* What is wrong with a line. */
#define FAULTS(F) \
    F(NO_FAULT, "nothing") \
    F(NO_TOKEN, "this is nothing known") \
    F(LONG_NUMBER, "the number is too large") \
    F(LONG_NAME, "the name is too long") \
    F(NO_OPERAND, "an operand is missing") \
    F(NO_OPERATOR, "an operator is missing") \
    F(NO_CLOSE, "a bracket is open") \
    F(NO_OPEN, "a bracket is closed that is not open") \
    F(TOO_DEEP, "this is too deep") \
    F(NO_VALUE, "the name has no value") \
    F(TOO_MANY, "there are too many names") \
    F(NO_PLACE, "no value can be given to this") \
    F(BY_ZERO, "a division by zero")

#define AS_FAULT(name, text) name,
enum fault { FAULTS(AS_FAULT) FAULT_COUNT };
#undef AS_FAULT

/* Arithmetic that is defined for all operands. */
#define WRAPPED(a, b, sign) ((value)((unsigned)(a) sign (unsigned)(b)))
#define SHIFT(a, b, sign) ((b) < 0 || (b) > 31 ? 0 : (value)((unsigned)(a) sign (b)))
#define DIVISION(a, b, sign, by_minus_one) ((b) == 0 ? divided_by_zero() : (b) == -1 ? (by_minus_one) : (a) sign (b))

value divided_by_zero(void);

/* the line, and where its next token begins */
extern char line[LINE_LENGTH + 1];
extern int next;

/* the first fault of the line, and its column */
extern enum fault fault;
extern int fault_at;

#define IS_DIGIT(c) ((c) >= '0' && (c) <= '9')
#define IS_LETTER(c) (((c) >= 'a' && (c) <= 'z') || ((c) >= 'A' && (c) <= 'Z') || (c) == '_')
#define IS_BLANK(c) ((c) == ' ' || (c) == '\t')

/* Only the first fault counts. */
#define FAIL(which, column) do { if (fault == NO_FAULT) { fault = (which); fault_at = (column); } } while (0)

void begin_line(void);
int read_line(void);
void scan(struct token *t);
value evaluate(void);
value *place_of(const char *name, int is_new, int column);
void tell_names(unsigned base);
int level_of(enum operator o);
value apply(enum operator o, value a, value b);

#endif
