/* lineup as a library: what the program answers, and where a schedule leads.
 *
 * Both functions take bytes with their number and put what they answer into room that the caller
 * lends; neither keeps anything, and no pointer goes back. A pointer may not be null, also where
 * the number behind it is 0, and the rooms overlap nothing else that is passed. Two calls may run
 * at the same time on two threads. All is done on the calling thread. Memory is taken by malloc,
 * and is given back before a call returns, so no call is made from a signal handler, nor in a
 * forked child of a process with threads.
 *
 * A search is as deep as its bounds, so `lineup_answer` is told how many bytes of stack the caller
 * has left, and refuses a command whose bounds may take more: LINEUP_STACK of its `--bound` and its
 * `--serial`. `lineup_state` takes LINEUP_STACK(0, 1) at most. That the numbers suffice is measured,
 * on threads of that size, and not proved.
 */
#ifndef LINEUP_H
#define LINEUP_H

#include <stddef.h>
#include <stdint.h>

#ifdef __cplusplus
extern "C" {
#endif

/* The version of what stands here. */
#define LINEUP_INTERFACE 2

/* How many bytes of stack a command takes at most: 128 KiB, and 2 KiB for each move of a schedule up
 * to the bound, or half a KiB for each move of 16 operations that run alone, each with its call and
 * up to `serial` moves. certify and campaign take that of 256 and their own serial bound; explain,
 * trace, draw and refute that of 256 and 256; replay, spec, conform, and explain and witness with --spec
 * LINEUP_STACK(0, 0). */
#define LINEUP_STACK(bound, serial) \
    (131072 + (2048 * (size_t)(bound) > 8192 * ((size_t)(serial) + 1) ? 2048 * (size_t)(bound) : 8192 * ((size_t)(serial) + 1)))
/* What suffices for every command. */
#define LINEUP_MOST_STACK LINEUP_STACK(256, 256)

/* What the program `lineup` answers to the words of a command line, with blanks between them and
 * without `lineup` itself ("check --bound 60"), and to a bundle on its standard input.
 *
 * The first `room` bytes of the answer are put into `text`, and `*length` is the number of all of
 * them: where that is more than `room`, call again with so much room; the answer is the same.
 * `stack` is how many bytes of stack the caller has left; where that is too little for the command,
 * the answer is "refused stack", with status 2.
 *
 * Returns the exit status: 0 all is well, 1 a failure, 2 refused, 3 not decided, 4 no memory.
 * `--workers` is read and has no effect: one thread searches. */
uint8_t lineup_answer(const uint8_t *words, size_t words_length,
                      const uint8_t *bundle, size_t bundle_length, size_t stack,
                      uint8_t *text, size_t room, size_t *length);

/* Where the first moves of a schedule lead, at most `moves` of them. `schedule` is the text of a
 * schedule or of a report that shows one.
 *
 * Returns 0, and numbers (`*count` of them, of which the first `room` are put into `numbers`):
 *
 *   0  how the state stands: LINEUP_RUNNING, LINEUP_COMPLETE or LINEUP_STUCK
 *   1  how many moves were made
 *   2  how many moves the schedule has
 *   3  T, the number of threads
 *   4  C, the number of cells of all arrays, one array behind the other
 *   5  L, the number of locks
 *   then for each thread LINEUP_THREAD numbers:
 *      how many picks its next move has: 0 where it is blocked or has made all its calls
 *      how many of its operations have ended
 *      the number of its open operation in the component, from 1; 0 where none is open
 *      the place of its next instruction, from 0
 *      r0 to r7
 *   then the C cells
 *   then for each of the L locks the number of its owner, from 1; 0 where it is free
 *   then for each call and return so far 4 numbers: LINEUP_CALL, LINEUP_RETURN or LINEUP_TRAP, the
 *      thread, the number of the call in its thread, and the value that was returned
 *
 * Returns 1 where a move is not feasible where it stands, and its number from 0 is the one number;
 * 2 where a text is refused (`lineup_answer` with "replay" or "lint" says why); 4 where there was
 * no memory. There are at most LINEUP_MOST_NUMBERS numbers. */
uint8_t lineup_state(const uint8_t *component, size_t component_length,
                     const uint8_t *matrix, size_t matrix_length,
                     const uint8_t *schedule, size_t schedule_length,
                     size_t moves, uint32_t *numbers, size_t room, size_t *count);

enum { LINEUP_RUNNING = 0, LINEUP_COMPLETE = 1, LINEUP_STUCK = 2 };
enum { LINEUP_CALL = 0, LINEUP_RETURN = 1, LINEUP_TRAP = 2 };
enum { LINEUP_HEAD = 6, LINEUP_THREAD = 12, LINEUP_EVENT = 4 };

/* 6 + 8 threads + 16 arrays of 64 cells + 8 locks + 32 events */
#define LINEUP_MOST_NUMBERS (6 + 8 * 12 + 16 * 64 + 8 + 32 * 4)

#ifdef __cplusplus
}
#endif
#endif
