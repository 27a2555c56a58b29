/* Which bonder is it in: the nearest place of a name around a place, and the innermost place that holds or is both of two. */
#include "holds.h"

/* A holder, place 2, with a capillary, place 3, goes from one bonder, place 1, into another, place 4, in which a second holder, place 5,
** stands. Both bonders are named 20. */
static const char story[] = "20[30[exit 20.enter 20 | 60[]]] | 20[31[]]";

/* The number that finds this place. */
static keeper_answer at(unsigned place) { return (keeper_answer)place << 8; }

/* Makes the cell what the text says, and then so many steps of agent 0 with this wish. */
static void after(keeper_cell *cell, const char *text, int steps, uint8_t wish)
{
    HOLDS(keeper_read(cell, (const uint8_t *)text, strlen(text)) == 0);
    for (int turn = 0; turn < steps; turn++)
        HOLDS(keeper_refusal(keeper_step(cell, 0, wish)) == 0);
}

/* What keeper_nearest answers, which leaves the cell as it was. */
static keeper_answer nearest(const keeper_cell *cell, uint8_t place, uint16_t name)
{
    keeper_cell *lent = (keeper_cell *)(void *)exactly(cell, sizeof *cell);
    keeper_answer answer = keeper_nearest(lent, place, name);

    HOLDS(memcmp(lent, cell, sizeof *cell) == 0);
    HOLDS(keeper_found(answer) == answer >> 8);
    free(lent);
    return answer;
}

/* What keeper_common answers, which leaves the cell as it was; with the two places changed about it answers the same. */
static keeper_answer common(const keeper_cell *cell, uint8_t place, uint8_t other)
{
    keeper_cell *lent = (keeper_cell *)(void *)exactly(cell, sizeof *cell);
    keeper_answer answer = keeper_common(lent, place, other);

    HOLDS(keeper_common(lent, other, place) == answer);
    HOLDS(memcmp(lent, cell, sizeof *cell) == 0);
    free(lent);
    return answer;
}

/* The story, call by call: at the start, on its way to the floor, on the floor, on its way into the other bonder, and in it. */
static void bonders(keeper_cell *cell)
{
    static const struct {
        int steps;
        unsigned word;
        unsigned bonder;
        unsigned both;
        const char *listing;
    } rows[5] = {
        {0, 0, 1, 0, "20[30[exit 20.enter 20 | 60[]]] | 20[31[]]"},
        {4, KEEPER_LEFT, KEEPER_NOWHERE, 0, "20[31[]] | 20[] | 30[enter 20 | 60[]]"},
        {7, KEEPER_CAME, KEEPER_NOWHERE, 0, "20[31[]] | 20[] | 30[enter 20 | 60[]]"},
        {11, KEEPER_LEFT, 4, 4, "20[30[60[]] | 31[]] | 20[]"},
        {14, KEEPER_CAME, 4, 4, "20[30[60[]] | 31[]] | 20[]"},
    };

    for (int row = 0; row < 5; row++) {
        int steps = rows[row].steps;

        after(cell, story, steps - (steps > 0), 4);
        if (steps > 0)
            HOLDS(keeper_word(keeper_step(cell, 0, 4)) == rows[row].word);
        HOLDS(lists(cell, rows[row].listing));
        HOLDS(nearest(cell, 2, 20) == at(rows[row].bonder) && nearest(cell, 3, 20) == at(rows[row].bonder));
        HOLDS(common(cell, 2, 5) == at(rows[row].both) && common(cell, 3, 5) == at(rows[row].both));
        HOLDS(nearest(cell, 3, 30) == at(2) && nearest(cell, 5, 20) == at(4) && common(cell, 2, 3) == at(2));
    }
}

/* The nearest and not one further out; the place itself does not count, whatever its name; names and not keys. */
static void names(keeper_cell *cell)
{
    after(cell, "20[21[20[20[30[]]]]]", 0, 255);
    HOLDS(nearest(cell, 5, 20) == at(4) && nearest(cell, 4, 20) == at(3) && nearest(cell, 3, 20) == at(1) && nearest(cell, 2, 20) == at(1));
    HOLDS(nearest(cell, 1, 20) == at(KEEPER_NOWHERE) && nearest(cell, 5, 30) == at(KEEPER_NOWHERE));
    HOLDS(nearest(cell, 5, 21) == at(2) && nearest(cell, 2, 21) == at(KEEPER_NOWHERE) && nearest(cell, 5, 65535) == at(KEEPER_NOWHERE));
    for (uint8_t place = 1; place <= 5; place++)
        HOLDS(nearest(cell, place, 0) == at(0));
    HOLDS(nearest(cell, 0, 0) == at(KEEPER_NOWHERE) && nearest(cell, 0, 20) == at(KEEPER_NOWHERE));
    after(cell, "65535/7/8/9[30[]]", 0, 255);
    HOLDS(nearest(cell, 2, 65535) == at(1));
    for (uint16_t key = 7; key <= 9; key++)
        HOLDS(nearest(cell, 2, key) == at(KEEPER_NOWHERE));
    after(cell, "20/0/0/0[30[]]", 0, 255);
    HOLDS(nearest(cell, 2, 0) == at(0) && nearest(cell, 2, 20) == at(1));
}

/* In one holder, in one bonder, one in the other, a place with itself, and in nothing but the floor. */
static void both(keeper_cell *cell)
{
    static const uint8_t rows[][3] = {
        {3, 4, 2}, {3, 5, 1}, {4, 5, 1}, {2, 5, 1}, {3, 2, 2}, {3, 1, 1}, {5, 1, 1}, {3, 3, 3}, {1, 1, 1}, {0, 0, 0},
        {3, 7, 0}, {1, 6, 0}, {1, 7, 0}, {6, 7, 6}, {0, 3, 0}, {0, 6, 0}, {2, 7, 0}, {7, 7, 7}, {5, 4, 1}, {2, 2, 2},
    };

    after(cell, "20[30[60[] | 61[]] | 31[]] | 21[32[]]", 0, 255);
    for (size_t row = 0; row < sizeof rows / sizeof rows[0]; row++)
        HOLDS(common(cell, rows[row][0], rows[row][1]) == at(rows[row][2]));
}

/* 63 places in each other. */
static void deepest(keeper_cell *cell)
{
    uint8_t file[63 * 5 + 1];

    for (uint8_t place = 1; place < 64; place++) {
        const uint8_t record[5] = {1, place, (uint8_t)(place - 1), (uint8_t)(100 + place), 0};

        memcpy(file + 5 * (place - 1), record, 5);
    }
    file[sizeof file - 1] = 4;
    HOLDS(keeper_load(cell, file, sizeof file) == 0);
    for (uint8_t place = 0; place < 64; place++) {
        HOLDS(nearest(cell, 63, (uint16_t)(place == 0 ? 0 : 100 + place)) == at((unsigned)(place == 63 ? KEEPER_NOWHERE : place)));
        HOLDS(common(cell, 63, place) == at(place));
        HOLDS(nearest(cell, place, 163) == at(KEEPER_NOWHERE));
    }
}

/* A place that was opened is not in use, and what stood in it stands where the opener lives. */
static void opened(keeper_cell *cell)
{
    after(cell, "9[open 7 | 7[8[]]]", 3, 255);
    HOLDS(nearest(cell, 3, 7) == at(2) && common(cell, 3, 2) == at(2));
    HOLDS(keeper_word(keeper_step(cell, 0, 255)) == KEEPER_OPENED);
    HOLDS(nearest(cell, 3, 7) == at(KEEPER_NOWHERE) && nearest(cell, 3, 9) == at(1));
    HOLDS(nearest(cell, 2, 9) == KEEPER_NOT_YET_GIVEN && common(cell, 3, 2) == KEEPER_NOT_YET_GIVEN);
}

/* 10 first, then 3 for either place, then 5 for either. */
static void refusals(keeper_cell *cell)
{
    static const uint8_t large[3] = {64, 65, 255}, unused[3] = {6, 7, 63};

    after(cell, story, 5, 255);
    for (int row = 0; row < 3; row++) {
        HOLDS(nearest(cell, large[row], 20) == KEEPER_TOO_LARGE && nearest(cell, large[row], 0) == KEEPER_TOO_LARGE);
        HOLDS(nearest(cell, unused[row], 20) == KEEPER_NOT_YET_GIVEN && nearest(cell, unused[row], 0) == KEEPER_NOT_YET_GIVEN);
        for (uint8_t place = 0; place < 6; place++) {
            HOLDS(common(cell, place, large[row]) == KEEPER_TOO_LARGE);
            HOLDS(common(cell, place, unused[row]) == KEEPER_NOT_YET_GIVEN);
        }
        for (int other = 0; other < 3; other++) {
            HOLDS(common(cell, unused[row], large[other]) == KEEPER_TOO_LARGE);
            HOLDS(common(cell, large[row], large[other]) == KEEPER_TOO_LARGE);
            HOLDS(common(cell, unused[row], unused[other]) == KEEPER_NOT_YET_GIVEN);
        }
    }
    cell->locks[4] = 0;
    for (int row = 0; row < 3; row++) {
        HOLDS(nearest(cell, large[row], 20) == KEEPER_UNSOUND && nearest(cell, unused[row], 20) == KEEPER_UNSOUND);
        HOLDS(common(cell, large[row], unused[row]) == KEEPER_UNSOUND && common(cell, 2, unused[row]) == KEEPER_UNSOUND);
    }
    HOLDS(nearest(cell, 2, 20) == KEEPER_UNSOUND && common(cell, 2, 3) == KEEPER_UNSOUND);
}

int main(void)
{
    static keeper_cell cell;

    bonders(&cell);
    names(&cell);
    both(&cell);
    deepest(&cell);
    opened(&cell);
    refusals(&cell);
    printf("%d passed, 0 failed\n", tests);
    return 0;
}
