/* What libFuzzer calls: the first byte of an input chooses the words of a command line, and the rest is the bundle. The answer's
 * status has to be 0 to 4, and its text has to end with a line feed if the bundle does (`compile` leaves parts as they are). A
 * second call with less room has to give the same length, the same status and the front of the same text. A first byte of 255
 * calls lineup_state. */
#include "lineup.h"
#include <stdio.h>
#include <stdlib.h>
#include <string.h>

static const char *const commands[] = {
    "lint", "lint --source", "compile", "check --bound 12 --serial 12", "check --bound 12 --serial 12 --source",
    "check --spec --bound 8", "check --spec --marks --bound 8", "serial --serial 12", "replay", "trace", "trace --setup", "draw",
    "explain", "refute", "spec", "shrink --bound 10 --serial 10", "conform", "conform --show", "witness", "witness --spec",
    "witness --spec --marks", "certify --bound 8 --serial 8 --nodes 2000", "commands", "",
};
enum { COMMANDS = sizeof commands / sizeof *commands, ROOM = 1 << 16 };

static void wrong(const char *what, const char *words)
{
    fprintf(stderr, "wrong: %s: %s\n", what, words);
    abort();
}

static uint8_t text[ROOM], again[ROOM];
static uint32_t numbers[LINEUP_MOST_NUMBERS];

/* The parts of a bundle, at the lines `---`. */
static int parts_of(const uint8_t *bundle, size_t length, const uint8_t *part[3], size_t lengths[3])
{
    int count = 0;
    size_t begin = 0;
    for (size_t i = 0; i <= length && count < 3; i++)
        if (i == length || (i + 4 <= length && (i == 0 || bundle[i - 1] == '\n') && !memcmp(bundle + i, "---\n", 4))) {
            part[count] = bundle + begin;
            lengths[count++] = i - begin;
            begin = i + 4;
        }
    return count;
}

static void state(const uint8_t *bundle, size_t length)
{
    const uint8_t *part[3];
    size_t lengths[3], count = 0;
    if (parts_of(bundle, length, part, lengths) < 3)
        return;
    uint8_t status = lineup_state(part[0], lengths[0], part[1], lengths[1], part[2], lengths[2], length, numbers,
                                  LINEUP_MOST_NUMBERS, &count);
    if (status != 0 && status != 1 && status != 2 && status != 4)
        wrong("status", "lineup_state");
    if (count > LINEUP_MOST_NUMBERS || (status == 1 && count != 1) || (status > 1 && count != 0))
        wrong("number of numbers", "lineup_state");
}

int LLVMFuzzerTestOneInput(const uint8_t *input, size_t size)
{
    if (size == 0)
        return 0;
    if (input[0] == 255) {
        state(input + 1, size - 1);
        return 0;
    }
    const char *words = commands[input[0] % COMMANDS];
    const uint8_t *bundle = input + 1;
    size_t length = 0, second = 0;
    uint8_t status = lineup_answer((const uint8_t *)words, strlen(words), bundle, size - 1, LINEUP_MOST_STACK, text, ROOM, &length);
    if (status > 4)
        wrong("status", words);
    if (input[size - 1] == '\n' && length > 0 && length <= ROOM && text[length - 1] != '\n')
        wrong("the last line does not end", words);
    size_t room = length / 2 < ROOM ? length / 2 : ROOM;
    memset(again, 0, ROOM);
    uint8_t same = lineup_answer((const uint8_t *)words, strlen(words), bundle, size - 1, LINEUP_MOST_STACK, again, room, &second);
    if (same != status || second != length || memcmp(text, again, room) != 0)
        wrong("a second answer differs", words);
    for (size_t i = room; i < ROOM; i++)
        if (again[i])
            wrong("more was written than there is room", words);
    return 0;
}
