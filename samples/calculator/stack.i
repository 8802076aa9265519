int stack[64];
int *top = stack;
int depth;
void push(int v) { *top++ = v; depth++; }
int pop(void) { depth--; return *--top; }
