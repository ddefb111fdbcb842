/* Checks a bundle of a component and a matrix, and goes through the failing schedule move by move:
 *
 *   cc -I.. step.c -L.. -llineup -o step && ./step < ../../examples/broken-counter.bundle
 */
#include "lineup.h"
#include <stdio.h>
#include <string.h>

static uint8_t bundle[1 << 20], report[1 << 16];
static uint32_t now[LINEUP_MOST_NUMBERS];

static void show(size_t count) {
    const uint32_t threads = now[3], cells = now[4], locks = now[5];
    const uint32_t *thread = now + LINEUP_HEAD;
    const uint32_t *cell = thread + threads * LINEUP_THREAD;
    const uint32_t *owner = cell + cells;
    const uint32_t *event = owner + locks;
    printf("%3u  cells", now[1]);
    for (uint32_t i = 0; i < cells; i++) printf(" %u", cell[i]);
    for (uint32_t i = 0; i < locks; i++) printf(owner[i] ? "  lock %u of T%u" : "  lock %u free", i, owner[i] - 1);
    for (uint32_t t = 0; t < threads; t++, thread += LINEUP_THREAD)
        printf("  T%u %s", t, thread[0] ? "goes on" : thread[2] ? "waits" : "is done");
    if (event + LINEUP_EVENT <= now + count) {
        const uint32_t *last = now + count - LINEUP_EVENT;
        static const char *const kinds[] = {"calls", "returns", "traps"};
        printf("  last: T%u %s %u", last[1], kinds[last[0]], last[0] == LINEUP_RETURN ? last[3] : last[2]);
    }
    printf("\n");
}

int main(void) {
    const size_t length = fread(bundle, 1, sizeof bundle - 1, stdin);
    size_t report_length, count;
    const uint8_t status = lineup_answer((const uint8_t *)"check", 5, bundle, length, LINEUP_MOST_STACK, report, sizeof report,
                                         &report_length);
    fwrite(report, 1, report_length < sizeof report ? report_length : sizeof report, stdout);
    if (status != 1 || report_length > sizeof report) return status;

    bundle[length] = 0;
    const char *cut = strstr((const char *)bundle, "\n---\n");
    const size_t component = cut - (const char *)bundle + 1, matrix = component + 4;
    for (size_t moves = 0;; moves++) {
        if (lineup_state(bundle, component, bundle + matrix, length - matrix, report, report_length, moves,
                         now, LINEUP_MOST_NUMBERS, &count)) return 2;
        show(count);
        if (moves == now[2]) return status;
    }
}
