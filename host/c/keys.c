/* Keys: who may enter, leave and open a place; their records, their listing, and the floor's, which are 0. */
#include "holds.h"

/* A bonder, place 1, named 20, which is entered with 21, left with 22 and opened by nobody; beside it a supplier's magazine, place 2, named
** 40 by a record of kind 1. Agent 0, of the magazine, takes it into the bonder and out again, and would then open 20; agent 1, on the
** floor, opens the magazine. */
static const uint8_t bonder[] = {6, 1, 0, 20, 0, 21, 0, 22, 0, 0, 0, 1, 2, 0, 40, 0, 2, 0, 2, 3, 0, 1, 21, 0,
                                 3, 0, 2, 22, 0, 3, 0, 3, 20, 0, 2, 1, 0, 3, 1, 3, 40, 0, 4};

/* Whether a place has this name and these keys. */
static int is_named(const keeper_cell *cell, int place, unsigned name, unsigned entering, unsigned exiting, unsigned opening)
{
    const keeper_name *found = &cell->places[place].name;

    return found->name == name && found->entering == entering && found->exiting == exiting && found->opening == opening;
}

/* So many steps of an agent, after each of which the table is sound; the last word. */
static unsigned steps(keeper_cell *cell, uint8_t agent, int count)
{
    keeper_answer answer = 0;

    for (int turn = 0; turn < count; turn++) {
        answer = keeper_step(cell, agent, 255);
        HOLDS(keeper_refusal(answer) == 0 && keeper_check(cell) == 0);
    }
    return keeper_word(answer);
}

/* Kind 1 sets all keys to the name, kind 6 gives them, low byte first; the floor's are 0. */
static void loads(keeper_cell *cell)
{
    static const uint8_t file[] = {6, 63, 0, 1, 2, 3, 4, 5, 6, 7, 8, 1, 1, 63, 9, 1, 6, 2, 1, 7, 0, 7, 0, 7, 0, 7, 0, 4};

    HOLDS(keeper_bare(cell) == 0 && is_named(cell, 0, 0, 0, 0, 0));
    HOLDS(keeper_load(cell, file, sizeof file) == 0 && keeper_check(cell) == 0);
    HOLDS(is_named(cell, 63, 0x201, 0x403, 0x605, 0x807) && cell->places[63].parent == 0 && cell->places[63].way == 0);
    HOLDS(is_named(cell, 1, 0x109, 0x109, 0x109, 0x109) && is_named(cell, 2, 7, 7, 7, 7) && is_named(cell, 0, 0, 0, 0, 0));
    HOLDS(lists(cell, "513/1027/1541/2055[265[7[]]]"));
}

/* A record of kind 6 is refused as one of kind 1 is, whatever its keys are; a body that is cut is 1, whatever its bytes are. */
static void refusals(keeper_cell *cell)
{
    static const struct {
        uint8_t number, parent, name;
        unsigned refusal;
    } rows[] = {
        {64, 0, 7, KEEPER_TOO_LARGE},        {0, 64, 7, KEEPER_TOO_LARGE},         {255, 255, 0, KEEPER_TOO_LARGE},
        {2, 64, 7, KEEPER_PARENT_TOO_LARGE}, {1, 255, 0, KEEPER_PARENT_TOO_LARGE}, {1, 0, 7, KEEPER_GIVEN_TWICE},
        {1, 63, 0, KEEPER_GIVEN_TWICE},      {2, 2, 0, KEEPER_NOT_YET_GIVEN},      {2, 1, 0, KEEPER_NAME_ZERO},
    };
    keeper_answer answer;

    HOLDS(keeper_load(cell, bonder, sizeof bonder) == 0);
    for (size_t at = 0; at < sizeof rows / sizeof rows[0]; at++) {
        uint8_t file[5 + 11 + 1] = {1, 1, 0, 7, 0, 6, rows[at].number, rows[at].parent, rows[at].name, 0, 7, 0, 0, 0, 255, 255, 4};

        answer = refused(cell, file, sizeof file);
        HOLDS(keeper_refusal(answer) == rows[at].refusal && keeper_offset(answer) == 5);
        file[5] = 1;
        file[10] = 4;
        HOLDS(keeper_load(cell, file, 11) == answer);
        file[5] = 6;
        for (size_t length = 6; length < 16; length++) {
            answer = refused(cell, file, length);
            HOLDS(keeper_refusal(answer) == KEEPER_CUT_SHORT && keeper_offset(answer) == 5);
        }
    }
    answer = refused(cell, bonder, 11);
    HOLDS(keeper_refusal(answer) == KEEPER_CUT_SHORT && keeper_offset(answer) == 11);
    HOLDS(is_named(cell, 1, 20, 21, 22, 0));
}

/* The magazine goes in and out with the keys for that. Once it is opened, its agent lives on the floor, where the bonder stands, and cannot
** open the bonder; nobody can, by whatever number. */
static void rights(keeper_cell *cell)
{
    HOLDS(keeper_load(cell, bonder, sizeof bonder) == 0 && lists(cell, "open 40 | 20/21/22/0[] | 40[enter 21.exit 22.open 20]"));
    HOLDS(steps(cell, 0, 7) == KEEPER_CAME && cell->places[2].parent == 1 && lists(cell, "open 40 | 20/21/22/0[40[exit 22.open 20]]"));
    HOLDS(steps(cell, 0, 7) == KEEPER_CAME && cell->places[2].parent == 0 && steps(cell, 0, 3) == KEEPER_SLEPT);
    HOLDS(steps(cell, 1, 4) == KEEPER_OPENED && cell->agents[0].home == 0 && lists(cell, "open 20 | 20/21/22/0[]"));
    HOLDS(steps(cell, 0, 3) == KEEPER_SLEPT && keeper_all_rest(keeper_idle(cell)) == 1);
    HOLDS(is_named(cell, 1, 20, 21, 22, 0) && is_named(cell, 2, 0, 0, 0, 0));
    for (uint32_t number = 0; number <= 65535; number += 257) {
        uint8_t opener[] = {6, 1, 0, 20, 0, 21, 0, 22, 0, 0, 0, 2, 0, 0, 3, 0, 3, (uint8_t)(number & 255), (uint8_t)(number >> 8), 4};

        if (number == 0)
            HOLDS(keeper_refusal(refused(cell, opener, sizeof opener)) == KEEPER_NAME_ZERO);
        else
            HOLDS(keeper_load(cell, opener, sizeof opener) == 0 && steps(cell, 0, 3) == KEEPER_SLEPT);
    }
}

/* Of a place named 9, entered with 5, left with 6 and opened with 8, only the key of an action's kind lets the action fire. */
static void by_kind(keeper_cell *cell)
{
    static const uint8_t numbers[5] = {5, 6, 8, 9, 4};

    for (uint8_t kind = 1; kind <= 3; kind++) {
        for (int at = 0; at < 5; at++) {
            /* the agent's place stands beside place 1 for an enter, in it for an exit; an opener lives on the floor */
            uint8_t file[] = {6, 1, 0, 9, 0, 5, 0, 6, 0, 8, 0, 1, 2, kind == 2, 7, 0,
                              2, 0, kind == 3 ? 0 : 2, 3, 0, kind, numbers[at], 0, 4};

            HOLDS(keeper_load(cell, file, sizeof file) == 0);
            HOLDS(steps(cell, 0, 3) == (at == kind - 1 ? KEEPER_TOOK : KEEPER_SLEPT));
        }
    }
}

/* A place without its own keys is listed by its name, any other with all three. */
static void listings(keeper_cell *cell)
{
    static const struct {
        uint8_t keys[3];
        const char *text;
    } rows[] = {{{7, 7, 7}, "7[]"}, {{8, 7, 7}, "7/8/7/7[]"}, {{7, 8, 7}, "7/7/8/7[]"}, {{7, 7, 8}, "7/7/7/8[]"}, {{0, 0, 0}, "7/0/0/0[]"}};

    for (size_t at = 0; at < sizeof rows / sizeof rows[0]; at++) {
        const uint8_t *keys = rows[at].keys;
        uint8_t file[] = {6, 1, 0, 7, 0, keys[0], 0, keys[1], 0, keys[2], 0, 4};

        HOLDS(keeper_load(cell, file, sizeof file) == 0 && lists(cell, rows[at].text));
    }
}

/* A key of the floor that is not 0 makes the table unsound; the keys of other places, in use or not, may be any. */
static void unsound(keeper_cell *cell)
{
    static const uint16_t numbers[4] = {1, 20, 256, 65535};

    HOLDS(keeper_load(cell, bonder, sizeof bonder) == 0);
    for (int key = 0; key < 4; key++) {
        for (int at = 0; at < 4; at++) {
            for (int place = 0; place <= 3; place++) {
                keeper_name *name = &cell->places[place].name;
                uint16_t *field = key == 0 ? &name->entering : key == 1 ? &name->exiting : key == 2 ? &name->opening : &name->name;
                uint16_t number = *field;
                keeper_cell before;

                *field = numbers[at];
                memcpy(&before, cell, sizeof before);
                HOLDS(keeper_check(cell) == (place == 0 ? KEEPER_UNSOUND : 0));
                HOLDS(place != 0 || keeper_step(cell, 0, 255) == KEEPER_UNSOUND);
                HOLDS(memcmp(cell, &before, sizeof before) == 0);
                *field = number;
            }
        }
    }
    HOLDS(keeper_check(cell) == 0);
    cell->places[1].name.name = 0;
    HOLDS(keeper_check(cell) == KEEPER_UNSOUND);
}

/* The longest file and the longest listing have keys and releases; a record of kind 6 after them is what the most bytes decide. */
static void longest(keeper_cell *cell)
{
    static uint8_t file[KEEPER_FILE_DECIDING], text[KEEPER_LISTING_LONGEST];
    static const uint8_t again[11] = {6, 63, 0, 7, 0, 7, 0, 7, 0, 7, 0};
    size_t length = 0;

    for (uint8_t place = 1; place < KEEPER_PLACES; place++, length += 11)
        memcpy(file + length, (uint8_t[]){6, place, 0, 255, 255, 16, 39, 16, 39, 16, 39}, 11);
    for (uint8_t number = 0; number < KEEPER_AGENTS; number++) {
        memcpy(file + length, (uint8_t[]){5, number, 255, 255, 255, 255, 2, number, 0}, 9);
        length += 9;
        for (int action = 0; action < KEEPER_ACTIONS; action++, length += 5)
            memcpy(file + length, (uint8_t[]){3, number, 4, 255, 255}, 5);
    }
    file[length] = 4;
    HOLDS(length + 1 == KEEPER_FILE_LONGEST && keeper_load(cell, file, length + 1) == 0);
    HOLDS(keeper_list(cell, text, sizeof text - 1) == KEEPER_LISTING_TOO_LONG);
    HOLDS(keeper_length(keeper_list(cell, text, sizeof text)) == KEEPER_LISTING_LONGEST);
    HOLDS(memcmp(text + sizeof text - 28, " | 65535/10000/10000/10000[]", 28) == 0);
    memcpy(file + length, again, sizeof again);
    HOLDS(length + sizeof again == KEEPER_FILE_DECIDING);
    HOLDS(refused(cell, file, KEEPER_FILE_DECIDING) == ((keeper_answer)length << 8 | KEEPER_GIVEN_TWICE));
    HOLDS(refused(cell, file, KEEPER_FILE_DECIDING - 1) == ((keeper_answer)length << 8 | KEEPER_CUT_SHORT));
}

int main(void)
{
    static keeper_cell cell;

    loads(&cell);
    refusals(&cell);
    rights(&cell);
    by_kind(&cell);
    listings(&cell);
    unsound(&cell);
    longest(&cell);
    printf("%d passed, 0 failed\n", tests);
    return 0;
}
