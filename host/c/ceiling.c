/* No order churns forever: how many step calls can still change a cell, at most, and that no order passes it. */
#include "holds.h"

/* The worked example, and the number of its two agents with one action each. */
static const char example[] = "7[enter 9] | 9[exit 7]";
#define OF_EXAMPLE 54

/* The number of a loaded cell with so many agents and actions. */
static uint64_t loaded(uint64_t agents, uint64_t actions) { return 5 * agents * (2 * actions + 1) + 2 * actions; }

/* What keeper_ceiling answers, which leaves the cell as it was. */
static keeper_answer ceiling(const keeper_cell *cell)
{
    keeper_cell *lent = (keeper_cell *)(void *)exactly(cell, sizeof *cell);
    keeper_answer answer = keeper_ceiling(lent);

    HOLDS(memcmp(lent, cell, sizeof *cell) == 0);
    HOLDS(keeper_most_changes(answer) == answer >> 8);
    free(lent);
    return answer;
}

/* The number of a cell that is sound. */
static uint64_t most(const keeper_cell *cell)
{
    keeper_answer answer = ceiling(cell);

    HOLDS(keeper_refusal(answer) == 0);
    return keeper_most_changes(answer);
}

static void reads(keeper_cell *cell, const char *text) { HOLDS(keeper_read(cell, (const uint8_t *)text, strlen(text)) == 0); }

/* Cells that were just loaded or read: 0 of a bare floor, and 5 of an agent that has nothing to do. */
static void loads(keeper_cell *cell)
{
    static const uint8_t idle_agent[4] = {2, 0, 0, 4};
    static const uint8_t file[27] = {1, 1, 0, 7, 0, 1, 2, 0, 9, 0, 2, 0, 1, 3, 0, 1, 9, 0, 2, 1, 2, 3, 1, 2, 7, 0, 4};
    uint8_t full[64 * (3 + 16 * 5) + 1];
    size_t length = 0;

    HOLDS(keeper_bare(cell) == 0 && ceiling(cell) == 0);
    HOLDS(keeper_load(cell, file, 0) == 0 && ceiling(cell) == 0);
    HOLDS(keeper_load(cell, file, sizeof file) == 0 && ceiling(cell) == (keeper_answer)OF_EXAMPLE << 8 && loaded(2, 2) == OF_EXAMPLE);
    reads(cell, example);
    HOLDS(most(cell) == OF_EXAMPLE);
    reads(cell, "7[8[] | 9[]]");
    HOLDS(ceiling(cell) == 0);
    HOLDS(keeper_load(cell, idle_agent, sizeof idle_agent) == 0 && most(cell) == loaded(1, 0));
    reads(cell, "release 9.open 9.release 9 | 7[enter 9 | exit 7.exit 9]");
    HOLDS(most(cell) == loaded(3, 6));
    for (uint8_t agent = 0; agent < 64; agent++) {
        memcpy(full + length, (uint8_t[]){2, agent, 0}, 3);
        for (length += 3; length % (3 + 16 * 5) != 0; length += 5)
            memcpy(full + length, (uint8_t[]){3, agent, 3, 7, 0}, 5);
    }
    full[length] = 4;
    HOLDS(keeper_load(cell, full, length + 1) == 0 && most(cell) == loaded(64, 1024) && most(cell) == 657728);
    cell->given = 1;
    HOLDS(most(cell) == loaded(1, 16));
}

/* The worked example, call by call: left and came lower the number by 5 times the agents and 1, and no other call does. */
static void steps(keeper_cell *cell)
{
    static const uint8_t agents[13] = {0, 1, 0, 1, 0, 0, 1, 1, 0, 0, 0, 0, 1};
    static const uint64_t numbers[13] = {54, 54, 54, 54, 54, 43, 43, 43, 43, 43, 32, 32, 32};

    reads(cell, example);
    for (int at = 0; at < 13; at++) {
        HOLDS(keeper_refusal(keeper_step(cell, agents[at], 255)) == 0);
        HOLDS(most(cell) == numbers[at]);
    }
    HOLDS(keeper_refusal(keeper_touch(cell, 1, 1200)) == 0 && keeper_step(cell, 64, 0) == KEEPER_NO_SUCH_AGENT && most(cell) == 32);
    reads(cell, "open 7 | 7[8[]]");
    for (int turn = 0; turn < 4; turn++) {
        HOLDS(most(cell) == loaded(1, 1));
        HOLDS(keeper_word(keeper_step(cell, 0, 255)) == (turn == 3 ? KEEPER_OPENED : turn == 0 ? KEEPER_LOOKED : KEEPER_TOOK));
    }
    HOLDS(most(cell) == loaded(1, 0));
    reads(cell, "release 9");
    for (int turn = 0; turn < 3; turn++) {
        HOLDS(most(cell) == loaded(1, 1));
        HOLDS(keeper_word(keeper_step(cell, 0, 255)) == (turn == 2 ? KEEPER_PUT : turn == 0 ? KEEPER_LOOKED : KEEPER_TOOK));
    }
    HOLDS(most(cell) == loaded(1, 0));
}

/* Whether a word says that nothing changed. */
static int rests(unsigned word) { return word == KEEPER_HELD || word == KEEPER_ASLEEP || word == KEEPER_DONE; }

/* Whether two cells differ in a field: the byte between an action's kind and its name is none. */
static int differ(const keeper_cell *one, const keeper_cell *other)
{
    static keeper_cell copies[2];

    memcpy(&copies[0], one, sizeof *one);
    memcpy(&copies[1], other, sizeof *other);
    for (int copy = 0; copy < 2; copy++) {
        for (int agent = 0; agent < KEEPER_AGENTS; agent++) {
            for (int action = 0; action < KEEPER_ACTIONS; action++)
                ((uint8_t *)&copies[copy].agents[agent].actions[action])[1] = 0;
        }
    }
    return memcmp(&copies[0], &copies[1], sizeof *one) != 0;
}

/* A number below the limit; the same seed gives the same numbers. */
static unsigned below(uint64_t *seed, unsigned limit)
{
    *seed = *seed * UINT64_C(6364136223846793005) + UINT64_C(1442695040888963407);
    return (unsigned)(*seed >> 33) % limit;
}

/* An order at random to rest, by steps and by commits: the calls that change the cell are those that answer none of held, asleep and done, and
** from the start and from every cell on the way there are no more of them than the number there. A dispatcher that gives every agent a turn in each
** round is at rest after so many rounds at the latest. */
static void orders(keeper_cell *cell)
{
    static const char *const texts[] = {
        "7[enter 9] | 9[exit 7]",
        "1[enter 2.exit 2] | 2[enter 1.exit 1]",
        "open 1.open 2 | 1[2[open 3 | 3[exit 2]]] | 2[enter 1.exit 1]",
        "9[] | open 9.release 9 | open 9.release 9 | open 9.release 9",
        "1[enter 1.exit 1 | exit 1] | 1[enter 1 | open 1] | 1[exit 1.enter 1]",
    };
    uint64_t seed = 12;

    for (int run = 0; run < 200; run++) {
        uint64_t changes = 0, allowed = UINT64_MAX, start, rounds;
        unsigned agents;

        reads(cell, texts[run % 5]);
        start = most(cell);
        for (agents = 0; (cell->given >> agents & 1) != 0;)
            agents++;
        for (rounds = 0; !keeper_all_rest(keeper_idle(cell)); rounds++) {
            unsigned first = below(&seed, agents);

            for (unsigned turn = 0; turn < agents; turn++) {
                static keeper_cell before;
                uint8_t agent = (uint8_t)((first + turn) % agents), wish = (uint8_t)below(&seed, 6);
                keeper_answer answer;

                allowed = changes + most(cell) < allowed ? changes + most(cell) : allowed;
                memcpy(&before, cell, sizeof before);
                if (below(&seed, 2) == 0)
                    answer = keeper_step(cell, agent, wish);
                else
                    answer = keeper_commit(cell, agent, wish, keeper_ask(cell, agent, wish));
                HOLDS(keeper_refusal(answer) == 0);
                HOLDS(differ(cell, &before) == !rests(keeper_word(answer)));
                changes += !rests(keeper_word(answer));
                HOLDS(changes <= allowed && changes <= start);
            }
        }
        HOLDS(changes > 0 && rounds <= start);
    }
}

/* Refused with 10, before and after steps, and then the cell is as it was. */
static void unsound(keeper_cell *cell)
{
    reads(cell, example);
    cell->locks[2] = 0;
    HOLDS(ceiling(cell) == KEEPER_UNSOUND);
    cell->locks[2] = KEEPER_FREE;
    HOLDS(most(cell) == OF_EXAMPLE);
    cell->agents[1].count = 17;
    HOLDS(ceiling(cell) == KEEPER_UNSOUND);
    cell->agents[1].count = 1;
    cell->agents[0].stage = 4;
    HOLDS(ceiling(cell) == KEEPER_UNSOUND);
    cell->places[1].way = 1;
    HOLDS(most(cell) == 5 * 2 * (5 + 1) + 5);
    memset(cell, 0, sizeof *cell);
    HOLDS(ceiling(cell) == KEEPER_UNSOUND);
    memset(cell, 0xFF, sizeof *cell);
    HOLDS(ceiling(cell) == KEEPER_UNSOUND);
}

int main(void)
{
    static keeper_cell cell;

    loads(&cell);
    steps(&cell);
    orders(&cell);
    unsound(&cell);
    printf("%d passed, 0 failed\n", tests);
    return 0;
}
