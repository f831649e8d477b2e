/* Refuses requests for memory of the program into which it is loaded (LD_PRELOAD), for
tools/play/refuse.

   REFUSE=K refuses the K-th request, from 1. REFUSE_EACH=K refuses one of each K, the next one each
   time: if something takes K requests, then each of them is refused in turn. A request is a call of
   malloc or realloc, or of calloc, from the program's begin on. With REFUSE_ON_SIGNAL=1 it counts
   from the signal USR1 on, until USR2. REFUSE_FD=N names a descriptor, to which it writes `ASKED
   REFUSED` as the program ends: how many requests there were, and how many were refused.
   REFUSE_NOTE_FD=N names one to which it writes an octet for each that it refuses. */
#define _GNU_SOURCE
#include <errno.h>
#include <signal.h>
#include <stdatomic.h>
#include <stdio.h>
#include <stdlib.h>
#include <sys/syscall.h>
#include <unistd.h>

extern void *__libc_malloc(size_t size);
extern void *__libc_realloc(void *block, size_t size);
extern void *__libc_calloc(size_t count, size_t size);

static atomic_long asked, refused;
static long which, each;
static int told = -1, noted = -1;
static volatile sig_atomic_t is_begun;

static long number_in(const char *name)
{
    const char *text = getenv(name);
    return text ? atol(text) : 0;
}

static void begin_or_pause(int which_signal)
{
    is_begun = which_signal == SIGUSR1;
}

__attribute__((constructor)) static void begin(void)
{
    which = number_in("REFUSE");
    each = number_in("REFUSE_EACH");
    told = getenv("REFUSE_FD") ? (int)number_in("REFUSE_FD") : -1;
    noted = getenv("REFUSE_NOTE_FD") ? (int)number_in("REFUSE_NOTE_FD") : -1;
    if (number_in("REFUSE_ON_SIGNAL")) {
        signal(SIGUSR1, begin_or_pause);
        signal(SIGUSR2, begin_or_pause);
    } else {
        is_begun = 1;
    }
}

static int is_refused(void)
{
    if (!is_begun)
        return 0;
    long place = ++asked;
    if (place != which && !(each && place % each == place / each % each))
        return 0;
    refused++;
    if (noted >= 0 && write(noted, "r", 1) != 1)
        _exit(99);
    errno = ENOMEM;
    return 1;
}

void *malloc(size_t size)
{
    return is_refused() ? NULL : __libc_malloc(size);
}

void *realloc(void *block, size_t size)
{
    return is_refused() ? NULL : __libc_realloc(block, size);
}

void *calloc(size_t count, size_t size)
{
    return is_refused() ? NULL : __libc_calloc(count, size);
}

void _exit(int status)
{
    if (told >= 0) {
        char text[64];
        int length = snprintf(text, sizeof text, "%ld %ld", (long)asked, (long)refused);
        if (write(told, text, length) != length)
            status = 99;
    }
    syscall(SYS_exit_group, status);
    __builtin_unreachable();
}
