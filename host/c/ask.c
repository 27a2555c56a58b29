/* Ask, then commit: what is told at each stage, that a commit is the step where it is still so, and that it changes nothing where it is not. */
#include "holds.h"

#define NONE KEEPER_NONE_CHOSEN

/* The number of an ask that tells these three. */
static keeper_answer number_of(unsigned word, unsigned woken, unsigned chosen)
{
    return (keeper_answer)word << 8 | (keeper_answer)woken << 16 | (keeper_answer)chosen << 24;
}

/* Makes the cell what the text says, and then so many steps of these agents without a wish. */
static void after(keeper_cell *cell, const char *text, const char *agents)
{
    HOLDS(keeper_read(cell, (const uint8_t *)text, strlen(text)) == 0);
    for (; *agents != 0; agents++)
        HOLDS(keeper_refusal(keeper_step(cell, (uint8_t)(*agents - '0'), 255)) == 0);
}

/* Whether an ask tells these three, and leaves the cell as it was. */
static int tells(const keeper_cell *cell, uint8_t agent, uint8_t wish, unsigned word, unsigned woken, unsigned chosen)
{
    keeper_cell *lent = (keeper_cell *)(void *)exactly(cell, sizeof *cell);
    keeper_answer asked = keeper_ask(lent, agent, wish);
    int is_so = asked == number_of(word, woken, chosen) && memcmp(lent, cell, sizeof *cell) == 0;

    HOLDS(keeper_word(asked) == word && keeper_woken(asked) == woken && keeper_chosen(asked) == chosen && keeper_refusal(asked) == 0);
    free(lent);
    return is_so;
}

/* Whether a commit is refused with this number, and leaves the cell as it was. */
static int refuses(const keeper_cell *cell, uint8_t agent, uint8_t wish, keeper_answer asked, unsigned refusal)
{
    keeper_cell *lent = (keeper_cell *)(void *)exactly(cell, sizeof *cell);
    int is_so = keeper_commit(lent, agent, wish, asked) == refusal && memcmp(lent, cell, sizeof *cell) == 0;

    free(lent);
    return is_so;
}

/* Commits what an ask tells: that is the step, in its answer and in the cell. */
static void commits(keeper_cell *cell, uint8_t agent, uint8_t wish)
{
    static keeper_cell stepped;
    keeper_answer asked = keeper_ask(cell, agent, wish), answer;

    memcpy(&stepped, cell, sizeof stepped);
    answer = keeper_step(&stepped, agent, wish);
    HOLDS(keeper_commit(cell, agent, wish, asked) == answer && memcmp(cell, &stepped, sizeof stepped) == 0);
    HOLDS(answer == (asked & 0xFFFFFF) && keeper_check(cell) == 0);
}

/* What is told at each stage: of an enter, with and without a wish, of an exit, of an open and of a release. */
static void stages(keeper_cell *cell)
{
    static const unsigned goes[8] = {KEEPER_LOOKED, KEEPER_TOOK, KEEPER_TOOK, KEEPER_LEFT, KEEPER_TOOK, KEEPER_TOOK, KEEPER_CAME, KEEPER_DONE};
    static const unsigned opens[5] = {KEEPER_LOOKED, KEEPER_TOOK, KEEPER_TOOK, KEEPER_OPENED, KEEPER_DONE};
    static const unsigned puts[4] = {KEEPER_LOOKED, KEEPER_TOOK, KEEPER_PUT, KEEPER_DONE};
    static const unsigned sleeps[4] = {KEEPER_LOOKED, KEEPER_TOOK, KEEPER_SLEPT, KEEPER_ASLEEP};
    static const uint8_t wishes[5][2] = {{255, 2}, {1, 2}, {2, 2}, {3, 3}, {64, 2}};

    for (int at = 0; at < 5; at++) {
        after(cell, "7[enter 9] | 9[] | 9[]", "");
        for (int turn = 0; turn < 8; turn++) {
            HOLDS(tells(cell, 0, wishes[at][0], goes[turn], 0, turn == 2 || turn == 3 ? wishes[at][1] : NONE));
            commits(cell, 0, wishes[at][0]);
        }
    }
    after(cell, "9[7[exit 9]]", "");
    for (int turn = 0; turn < 8; turn++) {
        HOLDS(tells(cell, 0, 1, goes[turn], 0, NONE));
        commits(cell, 0, 1);
    }
    after(cell, "open 7 | 7[8[]]", "");
    for (int turn = 0; turn < 5; turn++) {
        HOLDS(tells(cell, 0, 255, opens[turn], 0, turn == 2 || turn == 3 ? 1 : NONE));
        commits(cell, 0, 255);
    }
    after(cell, "release 7 | 7[]", "");
    for (int turn = 0; turn < 4; turn++) {
        HOLDS(tells(cell, 0, 1, puts[turn], 0, NONE));
        commits(cell, 0, 1);
    }
    after(cell, "7[enter 7]", "");
    for (int turn = 0; turn < 4; turn++) {
        HOLDS(tells(cell, 0, 1, sleeps[turn], 0, NONE));
        commits(cell, 0, 1);
    }
}

/* The place is told with held too, and not with back; the number woken is told. A commit of held, asleep or done changes nothing. */
static void words(keeper_cell *cell)
{
    keeper_cell before;

    after(cell, "open 1 | 1[2[exit 1]]", "1100");
    memcpy(&before, cell, sizeof before);
    HOLDS(tells(cell, 0, 255, KEEPER_HELD, 0, 1));
    commits(cell, 0, 255);
    HOLDS(memcmp(cell, &before, sizeof before) == 0);
    after(cell, "7[enter 9] | 9[] | 8[enter 9]", "010");
    HOLDS(tells(cell, 1, 255, KEEPER_HELD, 0, NONE));
    after(cell, "open 1 | 1[2[3[exit 2]]]", "000111");
    HOLDS(tells(cell, 0, 255, KEEPER_OPENED, 0, 1));
    commits(cell, 1, 255);
    HOLDS(tells(cell, 0, 255, KEEPER_BACK, 0, NONE));
    commits(cell, 0, 255);
    after(cell, "7[enter 9] | 9[exit 7]", "0101001100");
    HOLDS(tells(cell, 0, 255, KEEPER_CAME, 1, NONE));
    commits(cell, 0, 255);
    after(cell, "open 1 | 1[enter 9 | exit 9 | 2[exit 9]]", "111222333000");
    HOLDS(tells(cell, 0, 255, KEEPER_OPENED, 3, 1));
    commits(cell, 0, 255);
    after(cell, "7[release 9 | open 9 | 8[enter 9]]", "11122200");
    HOLDS(tells(cell, 0, 255, KEEPER_PUT, 2, NONE));
    commits(cell, 0, 255);
    after(cell, "7[enter 7] | 9[enter 7]", "0001111111");
    memcpy(&before, cell, sizeof before);
    HOLDS(tells(cell, 1, 255, KEEPER_DONE, 0, NONE));
    commits(cell, 1, 255);
    HOLDS(memcmp(cell, &before, sizeof before) == 0);
    after(cell, "7[enter 7]", "000");
    memcpy(&before, cell, sizeof before);
    HOLDS(tells(cell, 0, 255, KEEPER_ASLEEP, 0, NONE));
    commits(cell, 0, 255);
    HOLDS(memcmp(cell, &before, sizeof before) == 0);
}

/* Asks that are not true any more: another word, another place, another number woken; and one that is still true. */
static void stale(keeper_cell *cell)
{
    static const char trays[] = "7[enter 9] | 8[] | 9[enter 6] | 9[] | 6[]", sleeper[] = "7[enter 9] | 8[enter 8] | 9[]";
    keeper_answer asked;

    after(cell, "7[enter 9] | 8[enter 9] | 9[]", "01");
    asked = keeper_ask(cell, 0, 255);
    HOLDS(keeper_step(cell, 1, 255) == KEEPER_TOOK << 8 && refuses(cell, 0, 255, asked, KEEPER_ANSWER_DIFFERS));
    HOLDS(tells(cell, 0, 255, KEEPER_HELD, 0, NONE));
    after(cell, trays, "00");
    asked = keeper_ask(cell, 0, 255);
    HOLDS(keeper_chosen(asked) == 3 && refuses(cell, 0, 4, asked, KEEPER_ANSWER_DIFFERS));
    after(cell, trays, "111111100");
    HOLDS(tells(cell, 0, 255, KEEPER_TOOK, 0, 4) && refuses(cell, 0, 255, asked, KEEPER_ANSWER_DIFFERS));
    after(cell, sleeper, "000");
    asked = keeper_ask(cell, 0, 255);
    after(cell, sleeper, "111000");
    HOLDS(tells(cell, 0, 255, KEEPER_LEFT, 1, 3) && asked == number_of(KEEPER_LEFT, 0, 3));
    HOLDS(refuses(cell, 0, 255, asked, KEEPER_ANSWER_DIFFERS));
    after(cell, "7[enter 9] | 8[enter 9] | 9[]", "0");
    asked = keeper_ask(cell, 0, 255);
    HOLDS(keeper_count(keeper_touch(cell, 1, 7)) == 7 && keeper_step(cell, 1, 255) == KEEPER_LOOKED << 8);
    HOLDS(keeper_commit(cell, 0, 255, asked) == KEEPER_TOOK << 8);
    HOLDS(refuses(cell, 0, 255, asked, KEEPER_ANSWER_DIFFERS));
}

/* Every other word, number woken and place, every other bit, and refusals handed back, at each stage of an enter. */
static void invented(keeper_cell *cell)
{
    for (int turns = 0; turns < 9; turns++) {
        static const char zeros[] = "00000000";
        keeper_answer asked;

        after(cell, "7[enter 9] | 9[exit 7] | 9[]", zeros + 8 - turns);
        asked = keeper_ask(cell, 0, 3);
        for (unsigned at = 0; at < 64; at += 8)
            for (keeper_answer byte = 1; byte < 256; byte++)
                HOLDS(refuses(cell, 0, 3, asked ^ byte << at, KEEPER_ANSWER_DIFFERS));
        HOLDS(refuses(cell, 0, 3, UINT64_MAX, KEEPER_ANSWER_DIFFERS));
        HOLDS(refuses(cell, 0, 3, KEEPER_NO_SUCH_AGENT, KEEPER_ANSWER_DIFFERS));
        HOLDS(refuses(cell, 0, 3, KEEPER_ANSWER_DIFFERS, KEEPER_ANSWER_DIFFERS));
        commits(cell, 0, 3);
    }
}

/* 10 comes before 11, and both before 18; a refused ask may be handed back. */
static void refusals(keeper_cell *cell)
{
    static const uint8_t nobody[4] = {2, 63, 64, 255};
    static const keeper_answer numbers[4] = {0, KEEPER_NO_SUCH_AGENT, KEEPER_TOOK << 8 | (keeper_answer)NONE << 24, UINT64_MAX};

    after(cell, "7[enter 9] | 9[exit 7]", "0");
    for (int at = 0; at < 4; at++)
        for (int other = 0; other < 4; other++) {
            HOLDS(keeper_ask(cell, nobody[at], 255) == KEEPER_NO_SUCH_AGENT);
            HOLDS(refuses(cell, nobody[at], 255, numbers[other], KEEPER_NO_SUCH_AGENT));
        }
    cell->locks[1] = 0;
    for (int at = 0; at < 4; at++)
        for (int other = 0; other < 4; other++) {
            HOLDS(keeper_ask(cell, nobody[at], 255) == KEEPER_UNSOUND && keeper_ask(cell, 0, 255) == KEEPER_UNSOUND);
            HOLDS(refuses(cell, nobody[at], 255, numbers[other], KEEPER_UNSOUND) && refuses(cell, 0, 255, numbers[other], KEEPER_UNSOUND));
        }
    HOLDS(refuses(cell, 0, 255, KEEPER_UNSOUND, KEEPER_UNSOUND));
}

int main(void)
{
    static keeper_cell cell;

    stages(&cell);
    words(&cell);
    stale(&cell);
    invented(&cell);
    refusals(&cell);
    printf("%d passed, 0 failed\n", tests);
    return 0;
}
