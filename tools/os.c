/* What the kit's libraries ask of C, for a program of tools/native --arm, since the kit has it for x86-64 alone: memory, the error number
   and the program's arguments. Nothing that is proved rests on it. */
#include <errno.h>
#include <stdbool.h>
#include <stddef.h>
#include <stdlib.h>
#include <sys/types.h>

/* Whether there is memory, and where; where there is none, at a byte that nobody owns. */
typedef struct tried {
    bool ok;
    void *p;
} tried;

static tried tried_at(void *p)
{
    static char nothing;
    return (tried){p, p ? p : &nothing};
}

/* A block of so many bytes; one of none takes as many as its alignment, so that it has a place of its own. */
tried rattle_alloc(size_t bytes, size_t alignment)
{
    return tried_at(malloc(bytes ? bytes : alignment));
}

tried rattle_realloc(void *p, size_t kept, size_t bytes, size_t alignment)
{
    (void)kept;
    return tried_at(realloc(p, bytes ? bytes : alignment));
}

void rattle_dealloc(void *p)
{
    free(p);
}

static size_t count;
static char **words;

__attribute__((constructor)) static void keep(int argc, char **argv)
{
    count = argc < 0 ? 0 : (size_t)argc;
    words = argv;
}

int rattle_errno(void)
{
    return errno;
}

void rattle_set_errno(int error)
{
    errno = error;
}

size_t rattle_arg_count(void)
{
    return count;
}

/* Argument i at the start of a buffer: its length, -1 where there is none, -2 where it does not fit. */
ssize_t rattle_arg(size_t i, char *buffer, size_t length)
{
    if (i >= count || !words[i])
        return -1;
    size_t n = 0;
    for (; words[i][n]; n++) {
        if (n == length)
            return -2;
        buffer[n] = words[i][n];
    }
    return (ssize_t)n;
}
