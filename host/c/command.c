/* The register window of a card: commands and clears, each in memory of exactly eight bytes, at any address. */
#include "holds.h"

#include <pthread.h>
#include <stdatomic.h>

/* The worked example, and its order: its eleventh step, of agent 0, answers came and wakes agent 1. */
static const char example[] = "7[enter 9] | 9[exit 7]";
static const uint8_t order[13] = {0, 1, 0, 1, 0, 0, 1, 1, 0, 0, 0, 0, 1};

static void reads(keeper_cell *cell, const char *text) { HOLDS(keeper_read(cell, (const uint8_t *)text, strlen(text)) == 0); }

/* The cell of a text after so many steps of agent 0. */
static void stepped(keeper_cell *cell, const char *text, int steps)
{
    reads(cell, text);
    for (int step = 0; step < steps; step++)
        HOLDS(keeper_refusal(keeper_step(cell, 0, 255)) == 0);
}

/* Whether a window that holds `before` holds `after` once its command was carried out. */
static int commands(keeper_cell *cell, const uint8_t *before, const uint8_t *after)
{
    keeper_window *lent = (keeper_window *)(void *)exactly(before, 8);
    int is_so;

    keeper_command(cell, lent);
    is_so = memcmp(lent, after, 8) == 0;
    free(lent);
    return is_so;
}
#define COMMANDS(cell, ...) commands(cell, (const uint8_t[2][8]){__VA_ARGS__}[0], (const uint8_t[2][8]){__VA_ARGS__}[1])

/* What a step writes, whatever stood there: answer, woken, flags and line, and nothing else. */
static void writes(keeper_cell *cell)
{
    for (unsigned at = 0; at < 4; at++) {
        uint8_t old = (uint8_t)(at * 85);

        reads(cell, example);
        HOLDS(COMMANDS(cell, {1, 1, 200, old, old, 0, 7, old}, {1, 1, 200, KEEPER_LOOKED, 0, 0, 7, 0}));
        HOLDS(COMMANDS(cell, {1, 9, 200, old, old, 0, 7, old}, {1, 9, 200, 128 + KEEPER_NO_SUCH_AGENT, 0, 4, 7, 1}));
        reads(cell, example);
        for (int step = 0; step < 10; step++)
            HOLDS(keeper_refusal(keeper_step(cell, order[step], 255)) == 0);
        HOLDS(COMMANDS(cell, {1, 0, 200, old, old, 0, 7, old}, {1, 0, 200, KEEPER_CAME, 1, 1, 7, 1}));
        memset(cell, 0, sizeof *cell);
        HOLDS(COMMANDS(cell, {1, 0, 200, old, old, 0, 3, old}, {1, 0, 200, 128 + KEEPER_UNSOUND, 0, 4, 3, 0}));
    }
}

/* The worked example through one window: the cell is that of keeper_step, and the flag of the waking stays. */
static void steps(keeper_cell *cell)
{
    static keeper_cell other;
    keeper_window window = {0};

    reads(cell, example);
    reads(&other, example);
    window.command = KEEPER_COMMAND_STEP;
    window.wish = 255;
    for (int at = 0; at < 13; at++) {
        keeper_answer answer = keeper_step(&other, order[at], 255);

        window.agent = order[at];
        window.mask = at % 2 == 0 ? KEEPER_FLAG_WOKE : KEEPER_FLAG_REST | KEEPER_FLAG_REFUSED;
        keeper_command(cell, &window);
        HOLDS(memcmp(cell, &other, sizeof other) == 0);
        HOLDS(window.answer == keeper_word(answer) && window.woken == keeper_woken(answer) && keeper_window_refusal(&window) == 0);
        HOLDS(window.flags == (at < 10 ? 0 : KEEPER_FLAG_WOKE) && window.line == (at >= 10 && at % 2 == 0));
    }
}

/* Rest by slept, asleep, put and done; a refusal sets its own flag alone, and what was set stays. */
static void flags(keeper_cell *cell)
{
    reads(cell, "7[]");
    HOLDS(COMMANDS(cell, {1, 0, 0, 0, 0, 0, 7, 0}, {1, 0, 0, 139, 0, 4, 7, 1}));
    stepped(cell, "7[enter 7]", 2);
    HOLDS(COMMANDS(cell, {1, 0, 0, 0, 0, 0, 2, 0}, {1, 0, 0, KEEPER_SLEPT, 0, 2, 2, 1}));
    HOLDS(COMMANDS(cell, {1, 0, 0, 0, 0, 1, 1, 0}, {1, 0, 0, KEEPER_ASLEEP, 0, 3, 1, 1}));
    HOLDS(COMMANDS(cell, {1, 1, 0, 0, 9, 0, 2, 1}, {1, 1, 0, 139, 0, 4, 2, 0}));
    stepped(cell, "release 9", 2);
    HOLDS(COMMANDS(cell, {1, 0, 0, 0, 0, 0, 0, 1}, {1, 0, 0, KEEPER_PUT, 0, 2, 0, 0}));
    HOLDS(COMMANDS(cell, {1, 0, 0, 0, 0, 252, 1, 1}, {1, 0, 0, KEEPER_DONE, 0, 254, 1, 0}));
}

/* Every command but 1: the line is set, and nothing else of cell and window changes; of an unsound table too. */
static void unknown(keeper_cell *cell)
{
    static keeper_cell before;

    for (int sound = 0; sound < 2; sound++) {
        stepped(cell, example, 3);
        cell->locks[1] = sound ? cell->locks[1] : 200;
        memcpy(&before, cell, sizeof before);
        for (unsigned bits = 0; bits < 65536; bits++) {
            uint8_t command = (uint8_t)(bits % 255 == 0 ? 0 : bits % 255 + 1), set = (uint8_t)bits, mask = (uint8_t)(bits >> 8);

            if (!COMMANDS(cell, {command, 0, 255, 9, 9, set, mask, set}, {command, 0, 255, 9, 9, set, mask, (set & mask) != 0}))
                HOLDS(!"the line and nothing else");
        }
        HOLDS(memcmp(cell, &before, sizeof before) == 0);
    }
}

/* Every clear of every flags. */
static void clears(void)
{
    for (unsigned bits = 0; bits < 65536; bits++) {
        uint8_t set = (uint8_t)bits, ones = (uint8_t)(bits >> 8), left = set & (uint8_t)~ones, mask = (uint8_t)(bits * 31 >> 4);
        uint8_t *lent = exactly((uint8_t[]){1, 2, 3, 4, 5, set, mask, 77}, 8);

        keeper_clear((keeper_window *)(void *)lent, ones);
        if (memcmp(lent, (uint8_t[]){1, 2, 3, 4, 5, left, mask, (left & mask) != 0}, 8) != 0)
            HOLDS(!"the flags that are not named, and the line");
        free(lent);
    }
    tests++;
}

/* A card that writes its own bytes while commands run, for so many rounds: it finds each as it wrote it, so no call stores them. */
#define ROUNDS 100000
static keeper_window shared;
static atomic_int over;
static unsigned long lost;

static void *card(void *nothing)
{
    volatile uint8_t *bytes = (volatile uint8_t *)&shared;
    static const int own[3] = {1, 2, 6};

    for (int round = 0; round < ROUNDS; round++) {
        for (int at = 0; at < 3; at++) {
            bytes[own[at]] = (uint8_t)round;
            for (int wait = 0; wait < 200; wait++)
                lost += bytes[own[at]] != (uint8_t)round;
        }
    }
    atomic_store(&over, 1);
    return nothing;
}

static void at_once(keeper_cell *cell)
{
    pthread_t thread;

    stepped(cell, example, 3);
    shared.command = KEEPER_COMMAND_STEP;
    if (pthread_create(&thread, NULL, card, NULL) != 0)
        exit(1);
    while (!atomic_load(&over)) {
        keeper_command(cell, &shared);
        keeper_clear(&shared, 7);
    }
    if (pthread_join(thread, NULL) != 0)
        exit(1);
    HOLDS(lost == 0);
}

int main(void)
{
    static keeper_cell cell;

    HOLDS(sizeof(keeper_window) == 8);
    writes(&cell);
    steps(&cell);
    flags(&cell);
    unknown(&cell);
    clears();
    at_once(&cell);
    printf("%d passed, 0 failed\n", tests);
    return 0;
}
