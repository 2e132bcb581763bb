/*
 * Sets the clock of the program into which this library is loaded before others (LD_PRELOAD).
 *
 * CLOCK has the seconds since 1970 that each look at the clock shows, one after the other, with a blank between two; the last one
 * stays. The clock that only counts how long something takes is left as it is.
 */
#include <stdlib.h>
#include <sys/syscall.h>
#include <time.h>
#include <unistd.h>

static const char *shown;
static long long seconds;

static void look(void)
{
    char *end;
    long long next;

    if (!shown)
        return;
    next = strtoll(shown, &end, 10);
    if (end == shown)
        return;
    seconds = next;
    shown = end;
}

int clock_gettime(clockid_t clock, struct timespec *time)
{
    int status = (int)syscall(SYS_clock_gettime, clock, time);

    if (status == 0 && clock == CLOCK_REALTIME && shown) {
        look();
        time->tv_sec = (time_t)seconds;
    }
    return status;
}

__attribute__((constructor)) static void read_clock(void)
{
    shown = getenv("CLOCK");
}
