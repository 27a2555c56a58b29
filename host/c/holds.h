/* What the tests of keeper.h share: a test that ends the program, copies of bytes in memory of exactly their size, refused loads, and
** listings. */
#ifndef HOLDS_H
#define HOLDS_H

#include "../keeper.h"

#include <stdio.h>
#include <stdlib.h>
#include <string.h>

/* How many tests held. */
static int tests;

/* Ends the program where something does not hold. */
#define HOLDS(test) holds((test) ? 1 : 0, #test, __FILE__, __LINE__)

static inline void holds(int test, const char *text, const char *file, int line)
{
    tests++;
    if (!test) {
        fprintf(stderr, "%s:%d: %s does not hold\n", file, line, text);
        exit(1);
    }
}

/* A copy of these bytes in memory of exactly their size, so that a sanitizer sees a byte too many. */
static inline uint8_t *exactly(const void *bytes, size_t length)
{
    uint8_t *copy = malloc(length == 0 ? 1 : length);

    if (copy == NULL)
        exit(1);
    memcpy(copy, bytes, length);
    return copy;
}

/* The answer to a file that must be refused, after which the cell must be as it was. */
static inline keeper_answer refused(keeper_cell *cell, const uint8_t *bytes, size_t length)
{
    keeper_cell *before = (keeper_cell *)(void *)exactly(cell, sizeof *cell);
    uint8_t *file = exactly(bytes, length);
    keeper_answer answer = keeper_load(cell, file, length);

    HOLDS(keeper_refusal(answer) != 0);
    HOLDS(memcmp(cell, before, sizeof *cell) == 0);
    HOLDS(memcmp(file, bytes, length) == 0);
    free(before);
    free(file);
    return answer;
}

/* Whether the listing is this text; a buffer of one byte less is refused. */
static inline int lists(const keeper_cell *cell, const char *text)
{
    size_t length = strlen(text);
    uint8_t *room = exactly(text, length);
    int is_so = keeper_list(cell, room, length - 1) == KEEPER_LISTING_TOO_LONG && memcmp(room, text, length) == 0;

    memset(room, '.', length);
    is_so = is_so && keeper_list(cell, room, length) == (keeper_answer)length << 8 && memcmp(room, text, length) == 0;
    free(room);
    return is_so;
}

#endif
