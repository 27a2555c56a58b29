/* Release of a fresh carrier: what is put, under which number, whom it wakes, and what happens where no number is unused. */
#include "holds.h"

/* A cell's text with so many empty places of name 5 after it. */
static const char *crowded(const char *text, int count)
{
    static char line[1024];
    size_t length = strlen(text);

    memcpy(line, text, length + 1);
    for (int place = 0; place < count; place++, length += 6)
        memcpy(line + length, " | 5[]", 7);
    return line;
}

/* Makes the cell what the text says, and then steps of these agents without a wish; the answer of the last one. */
static keeper_answer after(keeper_cell *cell, const char *text, const char *agents)
{
    keeper_answer answer = 0;

    HOLDS(keeper_read(cell, (const uint8_t *)text, strlen(text)) == 0);
    for (; *agents != 0; agents++) {
        answer = keeper_step(cell, (uint8_t)(*agents - '0'), 255);
        HOLDS(keeper_refusal(answer) == 0 && keeper_check(cell) == 0);
    }
    return answer;
}

/* Whether an answer is this word with so many woken. */
static int is(keeper_answer answer, unsigned word, unsigned woken)
{
    return answer == ((keeper_answer)word << 8 | (keeper_answer)woken << 16);
}

/* The new place: its name and keys, where it stands, its lock, its touches, and that it is the latest; the action is used up. */
static void what_is_put(keeper_cell *cell)
{
    const keeper_place *place = &cell->places[2];

    HOLDS(is(after(cell, "7[release 300.release 9]", "000"), KEEPER_PUT, 0) && cell->used == 7 && lists(cell, "7[release 9 | 300[]]"));
    HOLDS(place->name.name == 300 && place->name.entering == 300 && place->name.exiting == 300 && place->name.opening == 300);
    HOLDS(place->parent == 1 && place->way == 0 && cell->locks[1] == KEEPER_FREE && cell->locks[2] == KEEPER_FREE && cell->touches[2] == 0);
    HOLDS(cell->order[63] == 2 && cell->agents[0].stage == 0 && cell->agents[0].next == 1);
    HOLDS(is(after(cell, "7[release 300.release 9]", "0000000"), KEEPER_DONE, 0) && lists(cell, "7[300[] | 9[]]"));
}

/* It locks its own place, and wakes those who sleep on that place and nobody else. */
static void locks_and_sleepers(keeper_cell *cell)
{
    after(cell, "7[release 9]", "00");
    HOLDS(cell->agents[0].stage == 2 && cell->agents[0].remembered == 1 && cell->locks[1] == 0);
    HOLDS(is(after(cell, "7[release 9 | open 9]", "1010"), KEEPER_HELD, 0));
    HOLDS(is(after(cell, "7[release 9 | open 9 | 8[enter 9]] | open 9", "111222333000"), KEEPER_PUT, 2));
    HOLDS(cell->agents[1].stage == 0 && cell->agents[2].stage == 0 && cell->agents[3].stage == 7);
    HOLDS(is(after(cell, "open 7 | 7[release 9]", "01000111"), KEEPER_PUT, 0) && lists(cell, "9[]"));
}

/* The smallest unused number, of those that no record gave and of those that openings freed; touches start at 0. */
static void numbers(keeper_cell *cell)
{
    static const uint8_t file[] = {1, 63, 0, 5, 0, 1, 1, 0, 5, 0, 1, 2, 0, 5, 0, 1, 4, 0, 5, 0, 2, 0, 0,
                                   3, 0, 4, 9, 0, 3, 0, 4, 9, 0, 3, 0, 4, 9, 0, 4};

    HOLDS(keeper_load(cell, file, sizeof file) == 0);
    for (int turn = 0; turn < 9; turn++)
        HOLDS(keeper_refusal(keeper_step(cell, 0, 255)) == 0);
    HOLDS(cell->used == (0x7F | (uint64_t)1 << 63));
    HOLDS(cell->places[3].name.name == 9 && cell->places[5].name.name == 9 && cell->places[6].name.name == 9);
    after(cell, "open 7.release 8.open 8.release 9 | 6[] | 7[] | 6[]", "");
    HOLDS(keeper_count(keeper_touch(cell, 2, 50)) == 50);
    for (int turn = 0; turn < 4; turn++)
        keeper_step(cell, 0, 255);
    HOLDS(keeper_touches(cell, 2) == KEEPER_NOT_YET_GIVEN && cell->used == 11);
    for (int turn = 0; turn < 3; turn++)
        keeper_step(cell, 0, 255);
    HOLDS(cell->places[2].name.name == 8 && keeper_touches(cell, 2) == 0 && keeper_count(keeper_touches(cell, 0)) == 50);
    HOLDS(keeper_count(keeper_touch(cell, 2, 3)) == 3 && cell->order[61] == 1 && cell->order[62] == 3 && cell->order[63] == 2);
    for (int turn = 0; turn < 7; turn++)
        keeper_step(cell, 0, 255);
    HOLDS(cell->places[2].name.name == 9 && keeper_touches(cell, 2) == 0 && keeper_count(keeper_touches(cell, 0)) == 53);
}

/* With all numbers in use it sleeps on no place; any opening wakes all who do, also one that is moved, each counted once. */
static void full(keeper_cell *cell)
{
    const char *text = crowded("release 9.release 9 | 7[open 6 | 6[]]", 60);

    HOLDS(is(after(cell, text, "000000"), KEEPER_SLEPT, 0) && cell->used == UINT64_MAX && cell->places[63].name.name == 9);
    HOLDS(cell->agents[0].stage == 7 && cell->agents[0].remembered == KEEPER_NO_PLACE && cell->locks[0] == KEEPER_FREE);
    HOLDS(is(after(cell, text, "0000000"), KEEPER_ASLEEP, 0) && keeper_all_rest(keeper_idle(cell)) == 0);
    HOLDS(is(after(cell, text, "0000001111"), KEEPER_OPENED, 1));
    HOLDS(is(after(cell, text, "0000001111000"), KEEPER_PUT, 0) && cell->places[2].name.name == 9 && cell->places[2].parent == 0);
    HOLDS(keeper_all_rest(keeper_idle(cell)) == 1);
    text = crowded("7[open 6 | 6[release 9]] | 8[release 9 | release 9 | open 1]", 60);
    HOLDS(is(after(cell, text, "1112223334440000"), KEEPER_OPENED, 3) && cell->agents[4].stage == 7);
    HOLDS(is(after(cell, text, "1112223334440000222"), KEEPER_PUT, 1) && is(after(cell, text, "1112223334440000222333"), KEEPER_SLEPT, 0));
}

/* The number of an ask of a put, and commits: of others 18, also of one that was true before the last number was given to another. */
static void asks(keeper_cell *cell)
{
    static const keeper_answer put = KEEPER_PUT << 8 | 1 << 16 | (keeper_answer)KEEPER_NONE_CHOSEN << 24;
    keeper_answer asked;

    after(cell, "7[release 9 | open 9]", "11100");
    HOLDS(keeper_ask(cell, 0, 255) == put && keeper_ask(cell, 0, 2) == put);
    for (unsigned bit = 0; bit < 64; bit++)
        HOLDS(keeper_commit(cell, 0, 255, put ^ (keeper_answer)1 << bit) == KEEPER_ANSWER_DIFFERS && cell->used == 3);
    HOLDS(is(keeper_commit(cell, 0, 255, put), KEEPER_PUT, 1) && cell->used == 7);
    after(cell, crowded("release 9 | 5[release 9]", 61), "0011");
    asked = keeper_ask(cell, 0, 255);
    HOLDS(keeper_word(asked) == KEEPER_PUT && is(keeper_commit(cell, 1, 255, keeper_ask(cell, 1, 255)), KEEPER_PUT, 0));
    HOLDS(keeper_commit(cell, 0, 255, asked) == KEEPER_ANSWER_DIFFERS && keeper_word(keeper_ask(cell, 0, 255)) == KEEPER_SLEPT);
}

/* A release agent remembers its home at stages 1 and 2, is never at stage 3, and asleep it, and no other, may remember no place. */
static void unsound(keeper_cell *cell)
{
    static const char text[] = "7[release 9.exit 7 | open 8 | enter 9 | 8[]]";
    static const uint8_t others[6] = {0, 2, 3, 63, KEEPER_NO_PLACE, 255}, asleep[6] = {0, 2, KEEPER_NO_PLACE, 63, 65, 255};

    for (int at = 0; at < 12; at++) {
        after(cell, text, at % 2 == 0 ? "0" : "00");
        cell->agents[0].remembered = others[at / 2];
        HOLDS(keeper_check(cell) == KEEPER_UNSOUND && keeper_step(cell, 0, 255) == KEEPER_UNSOUND);
    }
    after(cell, text, "111");
    cell->agents[1].actions[0].kind = 4;
    HOLDS(keeper_check(cell) == KEEPER_UNSOUND);
    for (uint8_t agent = 0; agent < 3; agent++)
        for (int at = 0; at < 6; at++) {
            after(cell, text, "");
            cell->agents[agent].stage = 7;
            cell->agents[agent].remembered = asleep[at];
            HOLDS(keeper_check(cell) == (at < (agent == 0 ? 3 : 2) ? 0 : KEEPER_UNSOUND));
        }
    after(cell, text, "");
    cell->agents[0].actions[0].kind = 5;
    HOLDS(keeper_check(cell) == KEEPER_UNSOUND);
    /* asleep on no place while numbers are unused: any opening wakes it */
    after(cell, text, "111");
    cell->agents[0].stage = 7;
    cell->agents[0].remembered = KEEPER_NO_PLACE;
    HOLDS(is(keeper_step(cell, 1, 255), KEEPER_OPENED, 1));
    /* what a number held while it was not in use plays no part */
    after(cell, "7[release 9]", "00");
    memset(&cell->places[2], 0xFF, sizeof cell->places[2]);
    cell->locks[2] = 5;
    cell->touches[2] = UINT64_MAX;
    HOLDS(is(keeper_step(cell, 0, 255), KEEPER_PUT, 0) && keeper_check(cell) == 0 && keeper_touches(cell, 2) == 0 && lists(cell, "7[9[]]"));
}

int main(void)
{
    static keeper_cell cell;

    what_is_put(&cell);
    locks_and_sleepers(&cell);
    numbers(&cell);
    full(&cell);
    asks(&cell);
    unsound(&cell);
    printf("%d passed, 0 failed\n", tests);
    return 0;
}
