/* How much stack the library takes for one answer, and how much it declares.
 *
 *   stacks WORDS FILE    answers the command line WORDS (one argument) with the bundle in FILE, and prints two numbers: the bytes
 *                        of stack that it took, and the least `stack` with which it does not answer `refused stack`
 *
 * The answer is made on a stack of 32 MiB that was painted before, below which no page is mapped. */
#define _GNU_SOURCE
#include "lineup.h"
#include <stdio.h>
#include <stdlib.h>
#include <string.h>
#include <sys/mman.h>
#include <ucontext.h>

enum { STACK = 32 << 20, GUARD = 1 << 16, ROOM = 4 << 20, PAINT = 0xa5 };
static uint8_t bundle[2 << 20], text[ROOM];
static size_t length, answered;
static const char *words;
static ucontext_t home, away;

static void answer(void)
{
    lineup_answer((const uint8_t *)words, strlen(words), bundle, length, STACK, text, ROOM, &answered);
}

/* Whether the command is refused with this much stack: it is before the bundle is read. */
static int is_refused(size_t stack)
{
    static const char refused[] = "refused stack\n";
    uint8_t start[sizeof refused];
    size_t all;
    lineup_answer((const uint8_t *)words, strlen(words), (const uint8_t *)"", 0, stack, start, sizeof refused - 1, &all);
    return all == sizeof refused - 1 && !memcmp(start, refused, sizeof refused - 1);
}

int main(int count, char **arguments)
{
    FILE *file = count == 3 ? fopen(arguments[2], "rb") : NULL;
    if (!file)
        return 2;
    words = arguments[1];
    length = fread(bundle, 1, sizeof bundle, file);
    uint8_t *stack = mmap(NULL, STACK + GUARD, PROT_NONE, MAP_PRIVATE | MAP_ANONYMOUS | MAP_NORESERVE, -1, 0);
    if (stack == MAP_FAILED || mprotect(stack + GUARD, STACK, PROT_READ | PROT_WRITE))
        return 2;
    stack += GUARD;
    memset(stack, PAINT, STACK);
    getcontext(&away);
    away.uc_stack.ss_sp = stack;
    away.uc_stack.ss_size = STACK;
    away.uc_link = &home;
    makecontext(&away, answer, 0);
    swapcontext(&home, &away);
    size_t used = STACK;
    while (used > 0 && stack[STACK - used] == PAINT)
        used--;
    size_t low = 0, high = STACK;    /* refused, and not */
    while (high - low > 1) {
        size_t middle = low + (high - low) / 2;
        *(is_refused(middle) ? &low : &high) = middle;
    }
    printf("%zu %zu\n", used, high);
    return 0;
}
