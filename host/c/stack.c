/*
** How much stack the calls use: each runs in a thread whose stack was filled with a pattern, and what has lost it below the caller was
** used. The cells are full: all places in each other, side by side, or in a chain with one beside each, numbered against the order in
** which they are listed; all agents with sixteen actions. Where the agents release, one number is unused: one of them puts its place there,
** and the others sleep on no place. All agents step, many times; each step is also asked for before, and committed and commanded on copies. A listing is
** also made in a room that not every listing fits, and each listing is read back. Where a place is, is asked of the last one, which in a
** chain has all others around it. The trail of the steps is kept and audited with the listing at their end; it must be a yes.
*/
#define _POSIX_C_SOURCE 200809L
#include "../keeper.h"

#include <pthread.h>
#include <stdio.h>
#include <stdlib.h>
#include <string.h>

#define ROOM (1024 * 1024)
#define PATTERN 0xA5
#define CALLS 19
#define STEPPING 6 /* the last ones: ask, commit, step, command, trail and audit */

static keeper_cell cell;
static uint8_t file[KEEPER_FILE_LONGEST];
static size_t file_length;
static uint8_t text[KEEPER_LISTING_LONGEST];
static size_t text_length;
static uint8_t agent; /* or the place of a call for a place */
static keeper_answer asked;
static uint8_t moves[KEEPER_TRAIL_LONGEST];
static size_t trail_length;
static keeper_window window;

static void bare(void) { keeper_bare(&cell); }
static void load(void) { keeper_load(&cell, file, file_length); }
static void read(void) { keeper_read(&cell, text, text_length); }
static void step(void) { keeper_step(&cell, agent, 255); }
static void ask(void) { asked = keeper_ask(&cell, agent, 255); }
static void commit(void) { keeper_commit(&cell, agent, 255, asked); }
static void list(void) { keeper_list(&cell, text, sizeof text); }
static void list_short(void) { keeper_list(&cell, text, sizeof text - 1); }
static void check(void) { keeper_check(&cell); }
static void idle(void) { keeper_idle(&cell); }
static void ceiling(void) { keeper_ceiling(&cell); }
static void touch(void) { keeper_touch(&cell, agent, 1); }
static void touches(void) { keeper_touches(&cell, agent); }
static void nearest(void) { keeper_nearest(&cell, agent, 0); }
static void common(void) { keeper_common(&cell, agent, 1); }
static void trail(void) { trail_length += keeper_length(keeper_trail(agent, asked, moves + trail_length, sizeof moves - trail_length)); }
static void audit(void) { keeper_audit(file, file_length, moves, trail_length, text, text_length); }
static void command(void) { keeper_command(&cell, &window); }
static void clear(void) { keeper_clear(&window, 5); }

/* A call to measure, the stack that it runs on, and what it used. */
typedef struct measured {
    void (*call)(void);
    const uint8_t *stack;
    size_t used;
} measured;

/* In the thread: makes the call, and finds the lowest byte of the stack that has lost the pattern. */
static void *run(void *lent)
{
    measured *here = lent;
    const uint8_t *top = (const uint8_t *)&here;
    const uint8_t *lowest = here->stack;

    here->call();
    while (lowest < top && *lowest == PATTERN)
        lowest++;
    here->used = (size_t)(top - lowest);
    return NULL;
}

/* Raises `most` to the bytes of stack that the call uses. */
static void measure(void (*call)(void), size_t *most)
{
    static void *stack;
    measured here = {call, NULL, 0};
    pthread_attr_t attributes;
    pthread_t thread;

    if (stack == NULL && posix_memalign(&stack, 4096, ROOM) != 0)
        exit(1);
    memset(stack, PATTERN, ROOM);
    here.stack = stack;
    if (pthread_attr_init(&attributes) != 0 || pthread_attr_setstack(&attributes, stack, ROOM) != 0)
        exit(1);
    if (pthread_create(&thread, &attributes, run, &here) != 0 || pthread_join(thread, NULL) != 0)
        exit(1);
    pthread_attr_destroy(&attributes);
    *most = here.used > *most ? here.used : *most;
}

static void record(const uint8_t *bytes, size_t length)
{
    memcpy(file + file_length, bytes, length);
    file_length += length;
}

/* A full cell: places side by side (shape 0), in each other (1), or in a chain of odd numbers with one beside each (2), with names that fall
** and keys, an agent in each, with sixteen actions of this kind, and touches of each place. Where the kind is release, the last place is left
** out, and its agent lives on the floor. */
static void make_file(int shape, uint8_t kind)
{
    int places = kind == 4 ? 63 : 64;

    file_length = 0;
    for (int place = 1; place < places; place++) {
        int parent = shape == 0 ? 0 : shape == 1 ? place - 1 : place < 3 ? 0 : place - (place % 2 == 1 ? 2 : 3);

        record((uint8_t[]){6, (uint8_t)place, (uint8_t)parent, (uint8_t)(255 - place), 255, 255, 255, 255, 255, 254, 255}, 11);
    }
    for (uint8_t number = 0; number < 64; number++) {
        record((uint8_t[]){2, number, number < places ? number : 0}, 3);
        for (int action = 0; action < 16; action++)
            record((uint8_t[]){3, number, kind, kind == 3 ? 254 : 255, 255}, 5);
        if (number < places)
            record((uint8_t[]){5, number, 255, 255, 255, 255}, 6);
    }
    record((uint8_t[]){4}, 1);
}

int main(void)
{
    size_t used[CALLS] = {0};
    void (*const calls[CALLS])(void) = {bare,  load,    check,   idle,   ceiling, list,   list_short, read,
                                        touch, touches, nearest, common, clear,   ask,    commit,     step, command, trail, audit};
    const char *const names[CALLS] = {"bare",  "load",    "check",   "idle",   "ceiling", "list",   "list in a short room", "read",
                                      "touch", "touches", "nearest", "common", "clear",   "ask",    "commit",               "step", "command", "trail", "audit"};
    size_t most = 0;

    if (!keeper_fits())
        return 1;
    for (uint8_t kind = 1; kind <= 4; kind++) {
        for (int shape = 0; shape < 3; shape++) {
            make_file(shape, kind);
            trail_length = 0;
            measure(bare, &used[0]);
            agent = kind == 4 ? 62 : 63;
            keeper_load(&cell, file, file_length);
            text_length = keeper_length(keeper_list(&cell, text, sizeof text));
            for (int call = 1; call < CALLS - STEPPING; call++)
                measure(calls[call], &used[call]);
            keeper_load(&cell, file, file_length);
            for (int turn = 0; turn < 8 * 64; turn++) {
                keeper_cell before = cell;

                agent = (uint8_t)(turn / 8);
                measure(ask, &used[CALLS - 6]);
                measure(commit, &used[CALLS - 5]);
                cell = before;
                window = (keeper_window){.command = KEEPER_COMMAND_STEP, .agent = agent, .wish = 255};
                measure(command, &used[CALLS - 3]);
                cell = before;
                measure(step, &used[CALLS - 4]);
                measure(trail, &used[CALLS - 2]);
            }
            text_length = keeper_length(keeper_list(&cell, text, sizeof text));
            measure(audit, &used[CALLS - 1]);
            if (keeper_audit(file, file_length, moves, trail_length, text, text_length) != KEEPER_AUDIT_YES)
                return 1;
        }
    }
    for (int call = 0; call < CALLS; call++) {
        printf("stack used by keeper_%s: %zu bytes\n", names[call], used[call]);
        most = used[call] > most ? used[call] : most;
    }
    printf("stack used: %zu bytes, promised: at most %d\n", most, KEEPER_STACK);
    return most <= KEEPER_STACK ? 0 : 1;
}
