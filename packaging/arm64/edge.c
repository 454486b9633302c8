/* What the kit's crates `libc` and `os` call of the C library where the processor is arm64: memory, which stands in
 * heap.c, and all else. For x86-64 the kit has these functions built, in its folder c; for arm64 it has not. Nothing
 * proves them: each comment says what the contract or the comment of its declaration asks (rattle/libc/src/heap.rt and
 * rattle/os/src/c.rt of the kit), and edge_test.c tries that. */
#include "heap.c"
#include <errno.h>
#include <stddef.h>
#include <stdint.h>
#include <sys/prctl.h>

/* The words that the program was started with. glibc hands them to a constructor, before `main`. */
static int count;
static char **words;

__attribute__((constructor)) static void keep(int argc, char **argv)
{
    count = argc;
    words = argv;
}

/* How many words there are, the program's own name among them. */
size_t rattle_arg_count(void)
{
    return (size_t)count;
}

/* Puts the bytes of word `index` at the start of the `room` bytes at `bytes`, without the 0 that ends it, and
 * answers how many they are. Answers -1 where there is no such word, and nothing is written; and -2 where it doesn't
 * fit, and then the whole room has its first bytes. */
int64_t rattle_arg(size_t index, unsigned char *bytes, size_t room)
{
    if (index >= (size_t)count || !words[index])
        return -1;
    const char *word = words[index];
    size_t length = 0;
    for (; word[length]; length++) {
        if (length == room)
            return -2;
        bytes[length] = (unsigned char)word[length];
    }
    return (int64_t)length;
}

/* The calling thread's number of an error. */
int32_t rattle_errno(void)
{
    return errno;
}

void rattle_set_errno(int32_t error)
{
    errno = error;
}

/* Names the calling thread by the bytes before the first 0 of the 16 at `name`, of which the last one is 0. Answers
 * 0 or -1. */
int32_t rattle_set_thread_name(const char *name)
{
    return prctl(PR_SET_NAME, name, 0, 0, 0);
}
