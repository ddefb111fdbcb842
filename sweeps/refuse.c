/* Memory of which one growth is refused: the call number LINEUP_REFUSE, from 1, of malloc, calloc, realloc,
 * aligned_alloc and posix_memalign in the life of a process. With LINEUP_ONWARD, all calls from that one on are refused.
 * At the end the number of calls is written to the file
 * LINEUP_COUNT, where one is named. Where a file LINEUP_AGAIN is named, the program is run twice in the process: what it
 * was refused in is made again, from the beginning of standard input, and what it then prints goes to that file, behind
 * a line with the exit status of the first run; the process has that of the second. To be preloaded (LD_PRELOAD). */
#define _GNU_SOURCE
#include <dlfcn.h>
#include <errno.h>
#include <fcntl.h>
#include <setjmp.h>
#include <stdatomic.h>
#include <stdio.h>
#include <stdlib.h>
#include <sys/syscall.h>
#include <unistd.h>

extern void *__libc_malloc(size_t);
extern void *__libc_calloc(size_t, size_t);
extern void *__libc_realloc(void *, size_t);
extern void *__libc_memalign(size_t, size_t);

static atomic_long calls;

/* Whether the run that is refused a growth is over. */
static int is_ample;

static int is_refused(void)
{
    static long refused = -1;
    static int is_onward;
    if (refused < 0) {
        const char *number = getenv("LINEUP_REFUSE");
        refused = number ? atol(number) : 0;
        is_onward = refused > 0 && getenv("LINEUP_ONWARD");
    }
    long call = atomic_fetch_add(&calls, 1) + 1;
    return (is_onward ? call >= refused : call == refused) && !is_ample;
}

static jmp_buf first_end;
static int first_runs;

/* The program ends here: it writes the number of calls, and runs no destructors. The first of two runs goes back to
 * where it began. */
void _exit(int status)
{
    if (first_runs) {
        first_runs = 0;
        is_ample = 1;
        longjmp(first_end, status + 1);
    }
    const char *file = getenv("LINEUP_COUNT");
    char text[32];
    int length = snprintf(text, sizeof text, "%ld\n", atomic_load(&calls));
    int out = file ? open(file, O_WRONLY | O_CREAT | O_TRUNC, 0666) : -1;
    if (out >= 0 && write(out, text, length) == length)
        close(out);
    syscall(SYS_exit_group, status);
    __builtin_unreachable();
}

void *malloc(size_t size) { return is_refused() ? (errno = ENOMEM, NULL) : __libc_malloc(size); }

void *calloc(size_t count, size_t size) { return is_refused() ? (errno = ENOMEM, NULL) : __libc_calloc(count, size); }

void *realloc(void *old, size_t size) { return is_refused() ? (errno = ENOMEM, NULL) : __libc_realloc(old, size); }

void *aligned_alloc(size_t align, size_t size) { return is_refused() ? (errno = ENOMEM, NULL) : __libc_memalign(align, size); }

int posix_memalign(void **place, size_t align, size_t size)
{
    if (is_refused())
        return ENOMEM;
    *place = __libc_memalign(align, size);
    return *place ? 0 : ENOMEM;
}

static int (*program)(int, char **, char **);

/* Runs the program, and where a file LINEUP_AGAIN is named, before that with its own standard output. */
static int run_twice(int count, char **words, char **environment)
{
    const char *again = getenv("LINEUP_AGAIN");
    if (again) {
        first_runs = 1;
        int ended = setjmp(first_end);
        if (!ended)
            _exit(program(count, words, environment));
        int out = open(again, O_WRONLY | O_CREAT | O_TRUNC, 0666);
        if (lseek(0, 0, SEEK_SET) != 0 || out < 0 || dup2(out, 1) != 1 || dprintf(1, "%d\n", ended - 1) < 0)
            abort();
    }
    return program(count, words, environment);
}

int __libc_start_main(int (*main)(int, char **, char **), int count, char **words, void (*before)(void),
                      void (*after)(void), void (*at_end)(void), void *stack)
{
    int (*start)(int (*)(int, char **, char **), int, char **, void (*)(void), void (*)(void), void (*)(void), void *);
    *(void **)&start = dlsym(RTLD_NEXT, "__libc_start_main");
    program = main;
    return start(run_twice, count, words, before, after, at_end, stack);
}
