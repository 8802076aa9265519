/* The library, as far as it is used, and what is made of it. */
#ifndef IO_H
#define IO_H

int getchar(void);
int putchar(int c);

#define END (-1)
#define NEWLINE '\n'

/* A character that is put out whether or not it is one for a macro's argument. */
#define PUT(c) ((void)putchar(c))

#define PUT_TWO(c, d) (PUT(c), PUT(d))

void put_text(const char *text);
void put_number(int n, unsigned base);

/* A line of output: its parts, each put out by a call. */
#define TELL(parts) do { parts; PUT(NEWLINE); } while (0)

#endif
