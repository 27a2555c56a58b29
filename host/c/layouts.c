/* One layout, one listing: the order of what a place holds, and cells that differ in their numbers alone. */
#include "holds.h"

/* One layout of carriers as two hosts number it: 9 with 7 and 8 in it, 5 in 7; agents take 7 and 8 out of 9. */
static const uint8_t first[] = {1, 1, 0, 9, 0, 1, 2, 1, 8, 0, 1, 3, 1, 7, 0, 1, 4, 3, 5, 0,
                                2, 0, 2, 3, 0, 2, 9, 0, 2, 1, 3, 3, 1, 2, 9, 0, 4};
static const uint8_t second[] = {1, 9, 0, 9, 0, 1, 3, 9, 7, 0, 1, 2, 3, 5, 0, 1, 1, 9, 8, 0,
                                 2, 7, 3, 3, 7, 2, 9, 0, 2, 5, 1, 3, 5, 2, 9, 0, 4};

static uint8_t text[KEEPER_LISTING_LONGEST];
static uint8_t other[KEEPER_LISTING_LONGEST];

/* Whether two cells are listed with the same bytes, as a host compares them. */
static int same_listing(const keeper_cell *one, const keeper_cell *two)
{
    keeper_answer answer = keeper_list(one, text, sizeof text);

    HOLDS(keeper_refusal(answer) == 0);
    return keeper_list(two, other, sizeof other) == answer && memcmp(text, other, keeper_length(answer)) == 0;
}

/* Agents come first, then places, each in byte order of their whole texts, a shorter text before any that continues it. */
static void order(keeper_cell *cell)
{
    static const struct {
        uint8_t file[40];
        size_t length;
        const char *text;
    } rows[] = {
        {{1, 1, 0, 9, 0, 1, 2, 0, 7, 0, 4}, 11, "7[] | 9[]"},
        {{1, 1, 0, 7, 0, 1, 2, 0, 70, 0, 6, 3, 0, 7, 0, 1, 0, 1, 0, 1, 0, 4}, 22, "7/1/1/1[] | 70[] | 7[]"},
        {{1, 1, 0, 7, 0, 1, 2, 0, 7, 0, 2, 0, 1, 3, 0, 1, 7, 0, 4}, 19, "7[] | 7[enter 7]"},
        {{1, 1, 0, 9, 0, 1, 2, 0, 9, 0, 1, 3, 2, 7, 0, 4}, 16, "9[7[]] | 9[]"},
        {{1, 1, 0, 7, 0, 2, 0, 0, 3, 0, 3, 9, 0, 2, 1, 0, 3, 1, 3, 10, 0, 2, 2, 0, 3, 2, 1, 9, 0, 4}, 30, "enter 9 | open 10 | open 9 | 7[]"},
        {{2, 0, 0, 3, 0, 3, 12, 0, 2, 1, 0, 3, 1, 3, 1, 0, 3, 1, 2, 2, 0, 2, 2, 0, 3, 2, 3, 1, 0, 4}, 30, "open 1 | open 1.exit 2 | open 12"},
    };

    for (size_t at = 0; at < sizeof rows / sizeof rows[0]; at++)
        HOLDS(keeper_load(cell, rows[at].file, rows[at].length) == 0 && lists(cell, rows[at].text));
}

/* The two hosts' cells are listed alike, at the start and after the same moves; whether a place is still on its way is not seen, nor are
** touches. After another move the listings differ. */
static void two_hosts(keeper_cell *one, keeper_cell *two)
{
    HOLDS(keeper_load(one, first, sizeof first) == 0 && keeper_load(two, second, sizeof second) == 0);
    HOLDS(lists(one, "9[7[exit 9 | 5[]] | 8[exit 9]]") && memcmp(one, two, sizeof *one) != 0 && same_listing(one, two));
    for (int turn = 0; turn < 7; turn++) {
        HOLDS(keeper_refusal(keeper_step(one, 0, 255)) == 0);
        HOLDS(turn > 3 || keeper_refusal(keeper_step(two, 5, 255)) == 0);
    }
    HOLDS(two->places[1].way != 0 && one->places[2].way == 0 && keeper_count(keeper_touch(one, 2, 9)) == 9);
    HOLDS(lists(one, "8[] | 9[7[exit 9 | 5[]]]") && same_listing(one, two));
    for (int turn = 0; turn < 4; turn++)
        HOLDS(keeper_refusal(keeper_step(one, 1, 255)) == 0);
    HOLDS(lists(one, "7[5[]] | 8[] | 9[]") && !same_listing(one, two));
}

/* A full cell: 63 places of one name on the floor, or two in each; in each an agent of sixteen actions, the last of which differ and fall as
** the numbers of the places rise, or rise with them. */
static size_t full(uint8_t *file, int nested, int rising)
{
    size_t length = 0;

    for (uint8_t place = 1; place < KEEPER_PLACES; place++, length += 5)
        memcpy(file + length, (uint8_t[]){1, place, (uint8_t)(nested ? (place - 1) / 2 : 0), 255, 255}, 5);
    for (uint8_t number = 0; number < KEEPER_AGENTS; number++) {
        memcpy(file + length, (uint8_t[]){2, number, number}, 3);
        length += 3;
        for (int action = 0; action < KEEPER_ACTIONS; action++, length += 5) {
            uint8_t low = action < KEEPER_ACTIONS - 1 || number == 0 ? 255 : (uint8_t)(rising ? 128 + number : 192 - number);

            memcpy(file + length, (uint8_t[]){3, number, 1, low, 255}, 5);
        }
    }
    file[length] = 4;
    return length + 1;
}

/* On the floor, falling numbers and rising ones give the same bytes, and the places' texts, each as long as the others, stand in order
** behind the floor's own agent. Two in each, the layouts are not the same. The listing fits a buffer of its length and no shorter one. */
static void full_cells(keeper_cell *one, keeper_cell *two)
{
    static uint8_t file[KEEPER_FILE_LONGEST];
    const size_t row = 16 * strlen("enter 65535") + 15, place = strlen("65535[]") + row;
    size_t length = row + 63 * (strlen(" | ") + place);

    HOLDS(keeper_load(one, file, full(file, 0, 0)) == 0 && keeper_load(two, file, full(file, 0, 1)) == 0 && same_listing(one, two));
    HOLDS(keeper_length(keeper_list(one, text, sizeof text)) == length && memcmp(text, "enter 65535.", 12) == 0);
    for (size_t at = row + 3; at + place < length; at += place + 3)
        HOLDS(memcmp(text + at, "65535[", 6) == 0 && memcmp(text + at, text + at + place + 3, place) < 0);
    HOLDS(keeper_load(one, file, full(file, 1, 0)) == 0 && keeper_load(two, file, full(file, 1, 1)) == 0 && !same_listing(one, two));
    length = keeper_length(keeper_list(one, text, sizeof text));
    for (size_t room = length - 1; room <= length + 1; room++) {
        uint8_t *exact = exactly(other, room);

        memset(exact, '.', room);
        HOLDS(keeper_list(one, exact, room) == (room < length ? KEEPER_LISTING_TOO_LONG : (keeper_answer)length << 8));
        HOLDS(room < length ? exact[0] == '.' : memcmp(exact, text, length) == 0);
        free(exact);
    }
}

int main(void)
{
    static keeper_cell one, two;

    order(&one);
    two_hosts(&one, &two);
    full_cells(&one, &two);
    printf("%d passed, 0 failed\n", tests);
    return 0;
}
