/* Each call of keeper.h: what it answers, and that a refusal changes nothing. */
#include "holds.h"

/* The worked example's cell, `7[enter 9] | 9[exit 7]`. */
static const uint8_t example[27] = {1, 1, 0, 7, 0, 1, 2, 0, 9, 0, 2, 0, 1, 3, 0, 1, 9, 0, 2, 1, 2, 3, 1, 2, 7, 0, 4};

static void loads(keeper_cell *cell)
{
    static const uint8_t after_the_end[2] = {4, 4};
    static const uint8_t no_parent[6] = {1, 5, 5, 7, 0, 4};
    static const uint8_t largest[6] = {1, 63, 0, 7, 0, 4};
    static const uint8_t fifth_kind[9] = {2, 0, 0, 3, 0, 5, 0, 0, 4};
    keeper_answer answer;

    HOLDS(keeper_load(cell, example, sizeof example) == 0);
    answer = refused(cell, example, 1);
    HOLDS(keeper_refusal(answer) == KEEPER_CUT_SHORT && keeper_offset(answer) == 0);
    answer = refused(cell, example, 5);
    HOLDS(keeper_refusal(answer) == KEEPER_CUT_SHORT && keeper_offset(answer) == 5);
    answer = refused(cell, example + 1, 3);
    HOLDS(keeper_refusal(answer) == KEEPER_CUT_SHORT && keeper_offset(answer) == 0);
    answer = refused(cell, after_the_end, 2);
    HOLDS(keeper_refusal(answer) == KEEPER_AFTER_THE_END && keeper_offset(answer) == 1);
    answer = refused(cell, no_parent, 6);
    HOLDS(keeper_refusal(answer) == KEEPER_NOT_YET_GIVEN && keeper_offset(answer) == 0);
    answer = refused(cell, fifth_kind, 9);
    HOLDS(keeper_refusal(answer) == KEEPER_ACTION_KIND && keeper_offset(answer) == 3);
    HOLDS(keeper_load(cell, largest, 6) == 0);
    HOLDS(cell->places[63].name.name == 7 && cell->places[63].parent == 0 && cell->places[63].way == 0);
    HOLDS(cell->used == (1 | (uint64_t)1 << 63) && cell->given == 0 && cell->locks[63] == KEEPER_FREE);
}

/* Which number was too large: 3 for a place record's own number, 13 for a parent or home, 14 for an agent; the earlier byte decides, and
** all three come before 4. */
static void too_large(keeper_cell *cell)
{
    static const struct {
        uint8_t record[5];
        size_t length;
        unsigned refusal;
    } rows[] = {
        {{1, 64, 0, 7, 0}, 5, KEEPER_TOO_LARGE},         {{1, 0, 0, 7, 0}, 5, KEEPER_TOO_LARGE},
        {{1, 0, 64, 7, 0}, 5, KEEPER_TOO_LARGE},         {{1, 255, 255, 0, 0}, 5, KEEPER_TOO_LARGE},
        {{1, 2, 64, 7, 0}, 5, KEEPER_PARENT_TOO_LARGE},  {{1, 1, 64, 0, 0}, 5, KEEPER_PARENT_TOO_LARGE},
        {{2, 1, 64, 0, 0}, 3, KEEPER_PARENT_TOO_LARGE},  {{2, 0, 255, 0, 0}, 3, KEEPER_PARENT_TOO_LARGE},
        {{2, 64, 0, 0, 0}, 3, KEEPER_AGENT_TOO_LARGE},   {{2, 64, 64, 0, 0}, 3, KEEPER_AGENT_TOO_LARGE},
        {{3, 64, 1, 7, 0}, 5, KEEPER_AGENT_TOO_LARGE},   {{3, 255, 9, 0, 0}, 5, KEEPER_AGENT_TOO_LARGE},
        {{1, 1, 63, 0, 0}, 5, KEEPER_GIVEN_TWICE},       {{2, 0, 63, 0, 0}, 3, KEEPER_GIVEN_TWICE},
        {{1, 2, 63, 0, 0}, 5, KEEPER_NOT_YET_GIVEN},     {{3, 63, 9, 0, 0}, 5, KEEPER_NOT_YET_GIVEN},
    };

    HOLDS(keeper_load(cell, example, sizeof example) == 0);
    for (size_t at = 0; at < sizeof rows / sizeof rows[0]; at++) {
        uint8_t file[8 + 5 + 1] = {1, 1, 0, 7, 0, 2, 0, 1};
        keeper_answer answer;

        memcpy(file + 8, rows[at].record, rows[at].length);
        file[8 + rows[at].length] = 4;
        answer = refused(cell, file, 8 + rows[at].length + 1);
        HOLDS(keeper_refusal(answer) == rows[at].refusal && keeper_offset(answer) == 8);
    }
}

/* Whether two cells without agents say the same: places, locks, the two sets, the touches and the row. */
static int same_floor(const keeper_cell *one, const keeper_cell *other)
{
    return memcmp(one, other, offsetof(keeper_cell, agents)) == 0 && one->used == other->used && one->given == 0 && other->given == 0
        && memcmp(one->touches, other->touches, sizeof one->touches) == 0 && memcmp(one->order, other->order, sizeof one->order) == 0;
}

/* A file of length 0 is a bare floor, as `04` is, whatever the cell held before; nothing is read through its pointer. */
static void nothing_on_the_line(keeper_cell *cell)
{
    static const uint8_t end[1] = {4};
    static const uint8_t *const files[3] = {example, example + sizeof example, (const uint8_t *)1};
    static keeper_cell bare;
    uint8_t text[2] = {1, 2};

    HOLDS(keeper_load(&bare, end, 1) == 0);
    for (int at = 0; at < 3; at++) {
        HOLDS(keeper_load(cell, example, sizeof example) == 0 && keeper_step(cell, 0, 255) == 0);
        HOLDS(keeper_load(cell, files[at], 0) == 0);
        HOLDS(same_floor(cell, &bare));
    }
    HOLDS(keeper_bare(&bare) == 0 && same_floor(cell, &bare));
    HOLDS(cell->used == 1 && cell->given == 0 && keeper_check(cell) == 0);
    HOLDS(keeper_all_rest(keeper_idle(cell)) == 1);
    HOLDS(keeper_length(keeper_list(cell, text, 2)) == 1 && text[0] == '0' && text[1] == 2);
    HOLDS(keeper_step(cell, 0, 255) == KEEPER_NO_SUCH_AGENT);
    memset(cell, 0xFF, sizeof *cell);
    HOLDS(keeper_load(cell, files[0], 0) == 0 && same_floor(cell, &bare));
}

static void steps(keeper_cell *cell)
{
    static const uint8_t agents[13] = {0, 1, 0, 1, 0, 0, 1, 1, 0, 0, 0, 0, 1};
    static const char *const words[13] = {"looked", "looked", "took", "held", "took", "left", "took",
                                          "slept",  "took",   "took", "came", "done", "looked"};
    keeper_cell before;

    HOLDS(keeper_load(cell, example, sizeof example) == 0);
    for (int at = 0; at < 13; at++) {
        keeper_answer answer = keeper_step(cell, agents[at], 255);
        HOLDS(keeper_refusal(answer) == 0);
        HOLDS(strcmp(keeper_word_name(keeper_word(answer)), words[at]) == 0);
        HOLDS(keeper_woken(answer) == (keeper_word(answer) == KEEPER_CAME ? 1 : 0));
        HOLDS(keeper_check(cell) == 0);
        HOLDS(keeper_idle(cell) == 0);
    }
    memcpy(&before, cell, sizeof before);
    HOLDS(keeper_step(cell, 2, 0) == KEEPER_NO_SUCH_AGENT);
    HOLDS(keeper_step(cell, 64, 0) == KEEPER_NO_SUCH_AGENT);
    HOLDS(keeper_step(cell, 255, 0) == KEEPER_NO_SUCH_AGENT);
    HOLDS(keeper_ask(cell, 64, 0) == KEEPER_NO_SUCH_AGENT && keeper_commit(cell, 64, 0, 0) == KEEPER_NO_SUCH_AGENT);
    HOLDS(keeper_commit(cell, 0, 0, 0) == KEEPER_ANSWER_DIFFERS);
    HOLDS(memcmp(cell, &before, sizeof before) == 0);
}

static void listings(keeper_cell *cell)
{
    static const char listing[22] = {'7', '[', 'e', 'n', 't', 'e', 'r', ' ', '9', ']', ' ',
                                     '|', ' ', '9', '[', 'e', 'x', 'i', 't', ' ', '7', ']'};

    HOLDS(keeper_load(cell, example, sizeof example) == 0);
    for (size_t room = 0; room < 40; room++) {
        uint8_t dots[40];
        uint8_t *text;
        keeper_answer answer;
        size_t length = room < 22 ? 0 : 22;

        memset(dots, '.', sizeof dots);
        text = exactly(dots, room);
        answer = keeper_list(cell, text, room);
        HOLDS(keeper_refusal(answer) == (room < 22 ? KEEPER_LISTING_TOO_LONG : 0));
        HOLDS(keeper_length(answer) == length);
        HOLDS(memcmp(text, listing, length) == 0);
        HOLDS(memcmp(text + length, dots, room - length) == 0);
        free(text);
    }
}

static void unsound(keeper_cell *cell)
{
    keeper_cell before;
    uint8_t text[2] = {1, 2};

    memset(cell, 0xFF, sizeof *cell);
    memcpy(&before, cell, sizeof before);
    HOLDS(keeper_check(cell) == KEEPER_UNSOUND);
    HOLDS(keeper_idle(cell) == KEEPER_UNSOUND && keeper_ceiling(cell) == KEEPER_UNSOUND);
    HOLDS(keeper_step(cell, 64, 0) == KEEPER_UNSOUND);
    HOLDS(keeper_ask(cell, 64, 0) == KEEPER_UNSOUND && keeper_commit(cell, 64, 0, UINT64_MAX) == KEEPER_UNSOUND);
    HOLDS(keeper_touch(cell, 64, 1) == KEEPER_UNSOUND && keeper_touches(cell, 64) == KEEPER_UNSOUND);
    HOLDS(keeper_nearest(cell, 64, 0) == KEEPER_UNSOUND && keeper_common(cell, 64, 64) == KEEPER_UNSOUND);
    HOLDS(keeper_list(cell, text, 0) == KEEPER_UNSOUND && keeper_list(cell, text, 2) == KEEPER_UNSOUND);
    HOLDS(memcmp(cell, &before, sizeof before) == 0 && text[0] == 1 && text[1] == 2);
    HOLDS(keeper_bare(cell) == 0 && keeper_check(cell) == 0);
    HOLDS(keeper_all_rest(keeper_idle(cell)) == 1);
    HOLDS(keeper_length(keeper_list(cell, text, 1)) == 1 && text[0] == '0' && text[1] == 2);
}

/* Touch records: each refusal of kind 5, after place 1 with a count of its own. */
static void touch_records(keeper_cell *cell)
{
    static const struct {
        uint8_t record[6];
        size_t length;
        unsigned refusal;
    } rows[] = {
        {{5, 64, 1, 0, 0, 0}, 6, KEEPER_TOO_LARGE},    {{5, 255, 1, 0, 0, 0}, 6, KEEPER_TOO_LARGE},
        {{5, 1, 0, 0, 0, 0}, 6, KEEPER_GIVEN_TWICE},   {{5, 2, 1, 0, 0, 0}, 6, KEEPER_NOT_YET_GIVEN},
        {{5, 64, 1, 0, 0, 0}, 5, KEEPER_CUT_SHORT},    {{7, 0, 0, 0, 0, 0}, 6, KEEPER_UNKNOWN_KIND},
    };

    for (size_t at = 0; at < sizeof rows / sizeof rows[0]; at++) {
        uint8_t file[11 + 6] = {1, 1, 0, 7, 0, 5, 1, 4, 3, 2, 1};
        keeper_answer answer;

        memcpy(file + 11, rows[at].record, rows[at].length);
        answer = refused(cell, file, 11 + rows[at].length);
        HOLDS(keeper_refusal(answer) == rows[at].refusal && keeper_offset(answer) == 11);
    }
}

/* A capillary's counter: the holder, place 3, goes into the bonder, place 1, and is touched there; then the tray, place 2, is opened in the
** bonder, which takes over its touches. */
static void touches(keeper_cell *cell)
{
    static const uint8_t file[] = {1, 1, 0, 20, 0, 1, 2, 1, 50, 0, 1, 3, 0, 30, 0, 5, 3, 0xB0, 4, 0, 0, 5, 2, 40, 0, 0, 0,
                                   2, 0, 1, 3, 0, 3, 50, 0, 2, 1, 3, 3, 1, 1, 20, 0, 4};
    keeper_cell before;

    HOLDS(keeper_load(cell, file, sizeof file) == 0);
    HOLDS(keeper_touches(cell, 3) == 1200 << 8 && keeper_touches(cell, 2) == 40 << 8 && keeper_touches(cell, 1) == 0);
    for (int turn = 0; turn < 7; turn++)
        HOLDS(keeper_refusal(keeper_step(cell, 1, 255)) == 0);
    HOLDS(cell->places[3].parent == 1 && cell->places[3].way == 0 && cell->touches[3] == 1200);
    HOLDS(keeper_count(keeper_touch(cell, 3, 300)) == 1500 && cell->touches[3] == 1500);
    for (int turn = 0; turn < 4; turn++)
        HOLDS(keeper_refusal(keeper_step(cell, 0, 255)) == 0);
    HOLDS(keeper_count(keeper_touches(cell, 1)) == 40 && keeper_count(keeper_touches(cell, 3)) == 1500 && cell->touches[2] == 0);
    HOLDS(keeper_count(keeper_touch(cell, 0, UINT32_MAX)) == UINT32_MAX);
    cell->touches[0] = KEEPER_TOUCHES_MOST - 1540 - 9;
    cell->touches[2] = UINT64_MAX;
    memcpy(&before, cell, sizeof before);
    HOLDS(keeper_touch(cell, 2, 0) == KEEPER_NOT_YET_GIVEN && keeper_touches(cell, 2) == KEEPER_NOT_YET_GIVEN);
    HOLDS(keeper_touch(cell, 64, 10) == KEEPER_TOO_LARGE && keeper_touches(cell, 255) == KEEPER_TOO_LARGE);
    HOLDS(keeper_touch(cell, 63, 10) == KEEPER_NOT_YET_GIVEN && keeper_touch(cell, 3, 10) == KEEPER_TOO_MANY_TOUCHES);
    HOLDS(memcmp(cell, &before, sizeof before) == 0);
    HOLDS(keeper_count(keeper_touch(cell, 3, 9)) == 1509 && keeper_check(cell) == 0 && keeper_touch(cell, 0, 1) == KEEPER_TOO_MANY_TOUCHES);
    cell->touches[1]++;
    HOLDS(keeper_check(cell) == KEEPER_UNSOUND && keeper_touch(cell, 64, 0) == KEEPER_UNSOUND && keeper_touches(cell, 3) == KEEPER_UNSOUND);
    cell->touches[1] = UINT64_MAX - cell->touches[0] - cell->touches[3] + 1;
    HOLDS(keeper_check(cell) == KEEPER_UNSOUND);
}

static void library(void)
{
    HOLDS(keeper_version() == KEEPER_VERSION);
    HOLDS(keeper_cell_bytes() == sizeof(keeper_cell) && sizeof(keeper_cell) == KEEPER_CELL_BYTES);
    HOLDS(keeper_fits());
}

static void texts(void)
{
    HOLDS(strcmp(keeper_refusal_text(KEEPER_NO_SUCH_AGENT), "no such agent") == 0);
    HOLDS(strcmp(keeper_refusal_text(KEEPER_TOO_LARGE), "place number above 63, or 0 in a place record") == 0);
    HOLDS(strcmp(keeper_refusal_text(KEEPER_PARENT_TOO_LARGE), "parent or home above 63") == 0);
    HOLDS(strcmp(keeper_refusal_text(KEEPER_AGENT_TOO_LARGE), "agent number above 63") == 0);
    HOLDS(strcmp(keeper_refusal_text(KEEPER_OUTSIDE_LANGUAGE), "not a text of the listing's language") == 0);
    HOLDS(strcmp(keeper_refusal_text(KEEPER_TOO_MANY), "more than 63 places, 64 agents or sixteen actions of one agent") == 0);
    HOLDS(strcmp(keeper_refusal_text(KEEPER_ANSWER_DIFFERS), "the step would answer otherwise") == 0);
    for (unsigned refusal = 1; refusal <= 18; refusal++)
        HOLDS(strcmp(keeper_refusal_text(refusal), "unknown") != 0);
    HOLDS(strcmp(keeper_refusal_text(0), "unknown") == 0 && strcmp(keeper_refusal_text(19), "unknown") == 0);
    HOLDS(strcmp(keeper_refusal_text(KEEPER_ACTION_KIND), "action kind not 1 to 4") == 0);
    HOLDS(strcmp(keeper_word_name(KEEPER_PUT), "put") == 0 && KEEPER_PUT == 8 && strcmp(keeper_word_name(11), "unknown") == 0);
}

int main(void)
{
    static keeper_cell cell;

    library();
    HOLDS(keeper_bare(&cell) == 0);
    loads(&cell);
    too_large(&cell);
    nothing_on_the_line(&cell);
    steps(&cell);
    listings(&cell);
    touch_records(&cell);
    touches(&cell);
    unsound(&cell);
    texts();
    printf("%d passed, 0 failed\n", tests);
    return 0;
}
