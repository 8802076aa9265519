/* Expressions: operators that wait on a stack, and their operands on another. */
#include "calc.h"

/* What waits: an open bracket, a sign before its operand, or an operator whose left operand is there. */
enum waiting { BRACKET, NEGATIVE, COMPLEMENT, NEGATION, BETWEEN };

struct pending { enum waiting what; enum operator operator; int at; };

static struct pending waits[DEPTH];
static int waiting;
static value operands[DEPTH];
static value *places[DEPTH];    /* where an operand that is a name alone stands */
static int ready;

#define TIGHT 11

#define PUSH_WAIT(w, o, column) \
    do { \
        if (waiting == DEPTH) \
            FAIL(TOO_DEEP, column); \
        else { \
            waits[waiting].what = (w); \
            waits[waiting].operator = (o); \
            waits[waiting].at = (column); \
            waiting++; \
        } \
    } while (0)

static void push_operand(value v, value *place, int column)
{
    if (ready == DEPTH) {
        FAIL(TOO_DEEP, column);
        return;
    }
    operands[ready] = v;
    places[ready] = place;
    ready++;
}

#define TOP (operands[ready - 1])
#define BELOW_TOP (operands[ready - 2])
#define ON_TOP(result) (TOP = (result), places[ready - 1] = 0)

/* The operator that waits longest last takes its operands. */
static void reduce(void)
{
    struct pending *p = &waits[--waiting];

    switch (p->what) {
    case NEGATIVE:
        ON_TOP(WRAPPED(0, TOP, -));
        break;
    case COMPLEMENT:
        ON_TOP(~TOP);
        break;
    case NEGATION:
        ON_TOP(!TOP);
        break;
    case BETWEEN:
        if (p->operator == GIVES) {
            if (places[ready - 2] == 0)
                FAIL(NO_PLACE, p->at);
            else
                *places[ready - 2] = TOP;
        }
        BELOW_TOP = apply(p->operator, BELOW_TOP, TOP);
        ready--;
        places[ready - 1] = 0;
        break;
    default:
        FAIL(NO_CLOSE, p->at);
    }
}

/* All that wait and bind as tightly as a level are reduced, up to a bracket; what gives a value groups to the right. */
static void reduce_to(int level)
{
    while (waiting > 0 && waits[waiting - 1].what != BRACKET && fault == NO_FAULT) {
        int other = waits[waiting - 1].what == BETWEEN ? level_of(waits[waiting - 1].operator) : TIGHT;

        if (other < level || (other == 0 && level == 0))
            return;
        reduce();
    }
}

/* An operand is wanted; whether one is still wanted behind the token. */
static int operand(struct token *t)
{
    value *place;

    switch (t->kind) {
    case NUMBER:
        push_operand(t->number, 0, t->at);
        return 0;
    case NAME: {
        int before = next;
        struct token following;

        scan(&following);
        place = 0;
        if (fault == NO_FAULT)
            place = place_of(t->name, following.kind == OPERATOR && following.operator == GIVES, t->at);
        next = before;
        push_operand(place != 0 ? *place : 0, place, t->at);
        return 0;
    }
    case OPEN:
        PUSH_WAIT(BRACKET, GIVES, t->at);
        return 1;
    case OPERATOR:
        if (t->operator == MINUS)
            PUSH_WAIT(NEGATIVE, GIVES, t->at);
        else if (t->operator != PLUS)
            FAIL(NO_OPERAND, t->at);
        return 1;
    default:
        FAIL(NO_OPERAND, t->at);
        return 1;
    }
}

/* An operator or a closing bracket is wanted; whether an operand is wanted behind it. */
static int behind(struct token *t)
{
    switch (t->kind) {
    case OPERATOR:
        reduce_to(t->operator == GIVES ? 0 : level_of(t->operator));
        PUSH_WAIT(BETWEEN, t->operator, t->at);
        return 1;
    case CLOSE:
        reduce_to(-1);
        if (waiting == 0)
            FAIL(NO_OPEN, t->at);
        else
            waiting--;
        return 0;
    default:
        FAIL(NO_OPERATOR, t->at);
        return 0;
    }
}

/* The value of what is left of the line. A `!` or `~` stands before an operand. */
value evaluate(void)
{
    struct token t;
    int wanted = 1;

    waiting = 0;
    ready = 0;
    while (fault == NO_FAULT) {
        while (IS_BLANK(line[next]))
            next++;
        if (wanted && (line[next] == '~' || line[next] == '!')) {
            PUSH_WAIT(line[next] == '~' ? COMPLEMENT : NEGATION, GIVES, next + 1);
            next++;
            continue;
        }
        scan(&t);
        if (t.kind == NOTHING)
            break;
        wanted = wanted ? operand(&t) : behind(&t);
    }
    if (wanted)
        FAIL(NO_OPERAND, next + 1);
    reduce_to(-1);
    if (waiting > 0)
        FAIL(NO_CLOSE, waits[waiting - 1].at);
    return fault == NO_FAULT ? TOP : 0;
}
