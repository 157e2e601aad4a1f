/* Preloaded before a program, it makes one request for memory fail: that of the number in FAIL_AT, counted from 1.
   With FAIL_COUNT set it tells on standard error how many requests there were. With FAIL_MARK set to a size, requests are counted
   from behind the last one of that size on, and up to one that is greater by 1. */
#include <stddef.h>
#include <stdio.h>
#include <stdlib.h>
#include <sys/syscall.h>
#include <unistd.h>

extern void *__libc_malloc(size_t);
extern void *__libc_realloc(void *, size_t);

static long failing = -1;
static long mark = 0;
static long asked = 0;
static int is_counting = 1;

static long number_of(const char *name)
{
    const char *number = getenv(name);
    return number ? atol(number) : 0;
}

/* Whether a request of this size is a mark. */
static int is_mark(size_t size)
{
    if (mark == 0 || size < (size_t)mark || size > (size_t)mark + 1)
        return 0;
    is_counting = size == (size_t)mark;
    if (is_counting)
        asked = 0;
    return 1;
}

static int fails(size_t size)
{
    if (failing < 0) {
        failing = number_of("FAIL_AT");
        mark = number_of("FAIL_MARK");
        is_counting = mark == 0;
    }
    if (is_mark(size) || !is_counting)
        return 0;
    asked += 1;
    return asked == failing;
}

void *malloc(size_t size)
{
    return fails(size) ? NULL : __libc_malloc(size);
}

void *realloc(void *old, size_t size)
{
    return fails(size) ? NULL : __libc_realloc(old, size);
}

__attribute__((destructor)) static void tell(void)
{
    if (getenv("FAIL_COUNT"))
        fprintf(stderr, "%ld\n", asked);
}

/* Where a program ends without its destructors. */
void _exit(int status)
{
    tell();
    syscall(SYS_exit_group, status);
    __builtin_unreachable();
}
