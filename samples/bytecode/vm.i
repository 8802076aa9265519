int pc, sp, running;
int stack[64];
extern int code[];
int putchar(int c);

static void push(int v) { stack[sp++] = v; }
static int pop(void) { return stack[--sp]; }

static void print(int n) {
  if (n > 9) print(n / 10);
  putchar('0' + n % 10);
}

static void step(void) {
  int a;
  switch (code[pc++]) {
    case 0: running = 0; break;
    case 1: push(code[pc++]); break;
    case 2: a = pop(); push(pop() + a); break;
    case 3: a = pop(); push(pop() - a); break;
    case 4: a = pop(); push(pop() % a); break;
    case 5: a = code[pc++]; if (pop() != 0) pc = a; break;
    case 6: push(stack[code[pc++]]); break;
    case 7: a = code[pc++]; stack[a] = pop(); break;
    case 8: print(pop()); putchar('\n'); break;
  }
}

int run(int slots) {
  int steps = 0;
  pc = 0;
  sp = slots;
  running = 1;
  while (running) { step(); steps++; }
  return steps;
}
