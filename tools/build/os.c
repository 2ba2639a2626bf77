/* The parts of the toolchain's library os that the programs use, for a processor without such an archive: errno and the program's
   arguments, as the toolchain declares them. It is our own code. Nothing here is proved, and neither is the toolchain's library. */
#include <errno.h>
#include <stddef.h>
#include <stdint.h>

static int count;
static char **words;

/* The C library calls it before main, with the arguments of main. */
__attribute__((constructor)) static void keep(int given, char **texts) {
    count = given;
    words = texts;
}

size_t rattle_arg_count(void) { return (size_t)count; }

/* Puts argument i at the start of the buffer and returns its length; -1 if there is none, -2 if it does not fit, and then the buffer is
   full. */
ptrdiff_t rattle_arg(size_t i, uint8_t *buffer, size_t room) {
    size_t n;
    if (i >= (size_t)count || !words[i]) return -1;
    for (n = 0; words[i][n]; n++) {
        if (n == room) return -2;
        buffer[n] = (uint8_t)words[i][n];
    }
    return (ptrdiff_t)n;
}

int32_t rattle_errno(void) { return errno; }

void rattle_set_errno(int32_t number) { errno = number; }
