/* First in, first served: the row of a cell, what loads, steps and openings make of it, and which rows are unsound. */
#include "holds.h"

/* Places on the floor: a holder 1, trays 4 and 3 in this order, a bonder 2 with places 7 and 5 in it. Agent 0 takes the holder into a tray,
** agent 1 takes tray 4 into the bonder and out again, agent 2, on the floor, opens the bonder. */
static const uint8_t trays[] = {1, 1, 0, 30, 0, 1, 4, 0, 50, 0, 1, 3, 0, 50, 0, 1, 2, 0, 20, 0, 1, 7, 2, 60, 0, 1, 5, 2, 61, 0,
                                2, 0, 1, 3, 0, 1, 50, 0, 2, 1, 4, 3, 1, 1, 20, 0, 3, 1, 2, 20, 0, 2, 2, 0, 3, 2, 3, 20, 0, 4};

/* Whether the row ends with these numbers, and the others stand before them as they are counted. */
static int row_is(const keeper_cell *cell, const uint8_t *latest, size_t count)
{
    uint8_t row[KEEPER_PLACES];
    size_t at = 0;

    for (uint8_t place = 0; place < KEEPER_PLACES; place++)
        if (memchr(latest, place, count) == NULL)
            row[at++] = place;
    memcpy(row + at, latest, count);
    return at + count == KEEPER_PLACES && memcmp(cell->order, row, sizeof row) == 0;
}

/* So many steps of an agent with a wish, after each of which the table is sound. */
static void steps(keeper_cell *cell, uint8_t agent, uint8_t wish, int count)
{
    for (int turn = 0; turn < count; turn++)
        HOLDS(keeper_refusal(keeper_step(cell, agent, wish)) == 0 && keeper_check(cell) == 0);
}

/* The row of a bare floor and of loads: file order, whatever the numbers are; a refused load leaves it. */
static void loads(keeper_cell *cell)
{
    static const uint8_t cut[] = {1, 9, 0, 7, 0};

    HOLDS(keeper_bare(cell) == 0 && row_is(cell, trays, 0));
    HOLDS(keeper_load(cell, trays, sizeof trays) == 0 && row_is(cell, (uint8_t[]){1, 4, 3, 2, 7, 5}, 6));
    HOLDS(keeper_refusal(keeper_load(cell, cut, sizeof cut)) == KEEPER_CUT_SHORT && row_is(cell, (uint8_t[]){1, 4, 3, 2, 7, 5}, 6));
    HOLDS(keeper_load(cell, cut, 0) == 0 && row_is(cell, trays, 0));
}

/* The tray that came first is taken first; a wish for the other one decides. */
static void choices(keeper_cell *cell)
{
    HOLDS(keeper_load(cell, trays, sizeof trays) == 0);
    steps(cell, 0, 255, 3);
    HOLDS(cell->agents[0].chosen == 4 && row_is(cell, (uint8_t[]){1, 4, 3, 2, 7, 5}, 6));
    steps(cell, 0, 255, 4);
    HOLDS(cell->places[1].parent == 4 && row_is(cell, (uint8_t[]){4, 3, 2, 7, 5, 1}, 6));
    HOLDS(keeper_load(cell, trays, sizeof trays) == 0);
    steps(cell, 0, 3, 7);
    HOLDS(cell->places[1].parent == 3 && row_is(cell, (uint8_t[]){4, 3, 2, 7, 5, 1}, 6));
}

/* A tray that left keeps its position in the row until it comes; having come back it is the latest, and the other one is taken. */
static void came_back(keeper_cell *cell)
{
    HOLDS(keeper_load(cell, trays, sizeof trays) == 0);
    steps(cell, 1, 255, 6);
    HOLDS(cell->places[4].way != 0 && row_is(cell, (uint8_t[]){1, 4, 3, 2, 7, 5}, 6));
    steps(cell, 1, 255, 8);
    HOLDS(cell->places[4].parent == 0 && row_is(cell, (uint8_t[]){1, 3, 2, 7, 5, 4}, 6));
    steps(cell, 0, 255, 7);
    HOLDS(cell->places[1].parent == 3);
}

/* Places that an opening frees are the latest, in their order, and the opened number stays where it stood. */
static void freed(keeper_cell *cell)
{
    HOLDS(keeper_load(cell, trays, sizeof trays) == 0);
    steps(cell, 1, 255, 7);
    HOLDS(row_is(cell, (uint8_t[]){1, 3, 2, 7, 5, 4}, 6));
    steps(cell, 2, 255, 4);
    HOLDS(cell->used == 0xBB && row_is(cell, (uint8_t[]){1, 3, 2, 7, 5, 4}, 6));
    HOLDS(keeper_load(cell, trays, sizeof trays) == 0);
    steps(cell, 0, 255, 7);
    steps(cell, 2, 255, 4);
    HOLDS(cell->places[7].parent == 0 && row_is(cell, (uint8_t[]){4, 3, 2, 1, 7, 5}, 6));
}

/* A number missing, doubled or above 63, in use or not, makes the table unsound; another order does not. */
static void unsound(keeper_cell *cell)
{
    HOLDS(keeper_load(cell, trays, sizeof trays) == 0);
    for (int at = 0; at < KEEPER_PLACES; at++) {
        uint8_t number = cell->order[at];
        uint8_t others[4] = {cell->order[(at + 1) % KEEPER_PLACES], KEEPER_PLACES, (uint8_t)(number + 64), 255};

        for (int other = 0; other < 4; other++) {
            keeper_cell before;

            cell->order[at] = others[other];
            memcpy(&before, cell, sizeof before);
            HOLDS(keeper_check(cell) == KEEPER_UNSOUND && keeper_step(cell, 0, 255) == KEEPER_UNSOUND);
            HOLDS(memcmp(cell, &before, sizeof before) == 0);
        }
        cell->order[at] = cell->order[0];
        cell->order[0] = number;
        HOLDS(keeper_check(cell) == 0);
    }
}

int main(void)
{
    static keeper_cell cell;

    loads(&cell);
    choices(&cell);
    came_back(&cell);
    freed(&cell);
    unsound(&cell);
    printf("%d passed, 0 failed\n", tests);
    return 0;
}
