/*
 * Refuses one allocation of the program into which this library is loaded before others (LD_PRELOAD), and counts all of them.
 *
 * REFUSED is the number of that allocation, counted from 1; with 0 none is refused. ALLOCATIONS names the file to which the end of the
 * program writes how many there were. An allocation is a call that asks for room, also one that the C library makes itself. The programs
 * of the repository ask by malloc and realloc alone.
 */
#include <errno.h>
#include <fcntl.h>
#include <stdio.h>
#include <stdlib.h>
#include <unistd.h>

/* The allocator of the C library, by the names that nothing takes the place of. */
extern void *__libc_malloc(size_t size);
extern void *__libc_calloc(size_t count, size_t size);
extern void *__libc_realloc(void *room, size_t size);

static unsigned long refused, allocations;

static int is_refused(void)
{
    allocations++;
    if (allocations != refused)
        return 0;
    errno = ENOMEM;
    return 1;
}

void *malloc(size_t size)
{
    return is_refused() ? NULL : __libc_malloc(size);
}

void *calloc(size_t count, size_t size)
{
    return is_refused() ? NULL : __libc_calloc(count, size);
}

/* A size of 0 asks for no room; it gives the old one back. */
void *realloc(void *room, size_t size)
{
    return size > 0 && is_refused() ? NULL : __libc_realloc(room, size);
}

__attribute__((constructor)) static void read_number(void)
{
    const char *number = getenv("REFUSED");

    if (number)
        refused = strtoul(number, NULL, 10);
}

__attribute__((destructor)) static void tell_count(void)
{
    const char *path = getenv("ALLOCATIONS");
    int file = path ? open(path, O_WRONLY | O_CREAT | O_TRUNC, 0600) : -1;
    char line[32];
    int length = snprintf(line, sizeof line, "%lu\n", allocations);

    if (file >= 0 && write(file, line, length) == length)
        close(file);
}
