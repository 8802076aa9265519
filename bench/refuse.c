/* Refuses memory to a program that is started with this library in LD_PRELOAD: of its calls of malloc and realloc the one
   with the number in the environment's REFUSED, counted from 1, answers that there is no memory (0 refuses none). When the
   program ends, the count of its calls stands in the file that COUNTED names. For the GNU C library. */
#include <errno.h>
#include <fcntl.h>
#include <stdio.h>
#include <stdlib.h>
#include <unistd.h>

extern void *__libc_malloc(size_t size);
extern void *__libc_realloc(void *old, size_t size);

static unsigned long calls, refused;

static int is_refused(void) {
    if (++calls != refused) return 0;
    errno = ENOMEM;
    return 1;
}

void *malloc(size_t size) { return is_refused() ? NULL : __libc_malloc(size); }
void *realloc(void *old, size_t size) { return is_refused() ? NULL : __libc_realloc(old, size); }

__attribute__((constructor)) static void begin(void) {
    const char *number = getenv("REFUSED");
    refused = number ? strtoul(number, NULL, 10) : 0;
    calls = 0;
}

__attribute__((destructor)) static void end(void) {
    char told[24];
    int length = snprintf(told, sizeof told, "%lu\n", calls);
    const char *path = getenv("COUNTED");
    int file = path ? open(path, O_WRONLY | O_CREAT | O_TRUNC, 0600) : -1;
    if (file >= 0 && write(file, told, (size_t)length) != length) _exit(125);
}
