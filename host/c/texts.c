/* Reading a text of the listing's language: what it gives, where it is refused, and that a refusal changes nothing. */
#include "holds.h"

#define DEEP 100000

static uint8_t listing[KEEPER_LISTING_LONGEST];
static char typed[3 * DEEP + 64];

/* Reads a text from memory of exactly its size; where it is refused, the cell must be as it was. */
static keeper_answer reading(keeper_cell *cell, const char *text, size_t length)
{
    keeper_cell *before = (keeper_cell *)(void *)exactly(cell, sizeof *cell);
    uint8_t *lent = exactly(text, length);
    keeper_answer answer = keeper_read(cell, lent, length);

    HOLDS(memcmp(lent, text, length) == 0);
    HOLDS(answer == 0 || memcmp(cell, before, sizeof *cell) == 0);
    free(before);
    free(lent);
    return answer;
}

/* Whether a text is refused with this number at this offset. */
static int refused_text(keeper_cell *cell, const char *text, unsigned refusal, size_t offset)
{
    keeper_answer answer = reading(cell, text, strlen(text));

    return keeper_refusal(answer) == refusal && keeper_offset(answer) == offset;
}

/* Texts outside the language, each with the first byte that no text of it could continue. */
static void outside(keeper_cell *cell)
{
    static const struct {
        const char *text;
        size_t offset;
    } rows[] = {
        {"", 0},           {"07[]", 1},      {"7[0]", 2},       {"65536[]", 4},        {"enter 0", 6},    {"7/0[]", 3},
        {"0\n", 1},        {"7[]\n", 3},     {"7[]\r\n", 3},    {"0 | 7[]", 1},        {"7[] | 0", 6},    {"7[ ]", 2},
        {" 7[]", 0},       {"7[] ", 4},      {"7[]|7[]", 3},    {"7[] |7[]", 5},       {"7[] | ", 6},     {"7", 1},
        {"7[", 2},         {"7[7[]", 5},     {"7[]]", 3},       {"7[]7[]", 3},         {"Enter 7", 0},    {"enter  7", 6},
        {"enter 7.", 8},   {"enter 7[]", 7}, {"enter 07", 6},   {"enter 65536", 10},   {"entre 7", 3},    {"exit", 4},
        {"e", 1},          {"release", 7},   {"7/", 2},         {"7/7[]", 3},          {"7/7/7[]", 5},    {"7/7/7/7/", 7},
        {"7/07/7/7[]", 3}, {"0/7/7/7[]", 1}, {"70000[]", 4},    {"7/7/7/65536[]", 10}, {"+7[]", 0},       {"7[\xC3\xA9]", 2},
        {"release 0", 8},  {"relase 7", 3},  {"release7", 7},   {"release 65536", 12}, {"put 7", 0},      {"Release 7", 0},
    };

    for (size_t at = 0; at < sizeof rows / sizeof rows[0]; at++)
        HOLDS(refused_text(cell, rows[at].text, KEEPER_OUTSIDE_LANGUAGE, rows[at].offset));
    /* a closing zero byte is no part of a text */
    HOLDS(reading(cell, "7[]", 4) == (3 << 8 | KEEPER_OUTSIDE_LANGUAGE));
}

/* A text of length 0 is refused, and nothing is read through its pointer. */
static void nothing(keeper_cell *cell)
{
    static const uint8_t text[3] = {'7', '[', ']'};
    static const uint8_t *const pointers[3] = {text, text + sizeof text, (const uint8_t *)1};
    keeper_cell before;

    memcpy(&before, cell, sizeof before);
    for (int at = 0; at < 3; at++)
        HOLDS(keeper_read(cell, pointers[at], 0) == KEEPER_OUTSIDE_LANGUAGE);
    HOLDS(memcmp(cell, &before, sizeof before) == 0);
}

/* Appends copies of a part to the typed text from this length on, with something between them; answers the length then. */
static size_t copies(size_t length, const char *part, const char *between, int count)
{
    for (int at = 0; at < count; at++) {
        const char *const bytes[2] = {at == 0 ? "" : between, part};

        for (int which = 0; which < 2; which++) {
            memcpy(typed + length, bytes[which], strlen(bytes[which]));
            length += strlen(bytes[which]);
        }
    }
    typed[length] = 0;
    return length;
}

/* So many places in each other with this in the innermost. */
static size_t nested(int count, const char *inner)
{
    size_t length = copies(copies(0, "7[", "", count), inner, "", 1);

    return copies(length, "]", "", count);
}

/* The typed text is refused with 17 at its length; with a fault after it, with 16 there. */
static void is_too_much(keeper_cell *cell, size_t length)
{
    HOLDS(refused_text(cell, typed, KEEPER_TOO_MANY, length));
    copies(length, " | 0", "", 1);
    HOLDS(refused_text(cell, typed, KEEPER_OUTSIDE_LANGUAGE, length + 3));
}

/* As much as fits is read, and one more of anything is refused with 17. */
static void too_many(keeper_cell *cell)
{
    static keeper_cell kept;

    HOLDS(reading(cell, typed, copies(0, "7[]", " | ", 63)) == 0 && cell->used == UINT64_MAX && cell->given == 0);
    HOLDS(reading(cell, typed, nested(63, "")) == 0 && cell->used == UINT64_MAX && cell->places[63].parent == 62);
    HOLDS(reading(cell, typed, copies(0, "open 7", " | ", 64)) == 0 && cell->used == 1 && cell->given == UINT64_MAX);
    HOLDS(reading(cell, typed, copies(0, "exit 7", ".", 16)) == 0 && cell->given == 1 && cell->agents[0].count == 16);
    memcpy(&kept, cell, sizeof kept);
    is_too_much(cell, copies(0, "7[]", " | ", 64));
    is_too_much(cell, nested(64, ""));
    is_too_much(cell, nested(1000, ""));
    is_too_much(cell, copies(0, "open 7", " | ", 65));
    is_too_much(cell, copies(0, "exit 7", ".", 17));
    is_too_much(cell, copies(copies(copies(0, "exit 7 | 7[", "", 1), "open 7", ".", 17), "]", "", 1));
    is_too_much(cell, nested(DEEP, ""));
    copies(0, "7[", "", DEEP);
    HOLDS(refused_text(cell, typed, KEEPER_OUTSIDE_LANGUAGE, 2 * DEEP));
    HOLDS(memcmp(cell, &kept, sizeof kept) == 0);
}

/* Places are numbered from 1 and agents from 0 as they appear, whatever the cell held before; for every other call the cell is a loaded
** one. */
static void numbered(keeper_cell *cell)
{
    static const char text[] = "9[7[exit 9] | enter 1 | 8/1/2/0[]] | open 2 | 5[]";
    static const uint16_t names[5] = {0, 9, 7, 8, 5};
    static const uint8_t parents[5] = {0, 0, 1, 1, 0}, homes[3] = {2, 1, 0};
    static const uint16_t numbers[3] = {9, 1, 2};

    memset(cell, 0xFF, sizeof *cell);
    HOLDS(keeper_check(cell) == KEEPER_UNSOUND);
    HOLDS(reading(cell, text, strlen(text)) == 0 && keeper_check(cell) == 0 && cell->used == 31 && cell->given == 7);
    for (int place = 0; place < 5; place++)
        HOLDS(cell->places[place].name.name == names[place] && cell->places[place].parent == parents[place] && cell->touches[place] == 0);
    for (int agent = 0; agent < 3; agent++) {
        HOLDS(cell->agents[agent].home == homes[agent] && cell->agents[agent].stage == 0 && cell->agents[agent].count == 1);
        HOLDS(cell->agents[agent].actions[0].name == numbers[agent]);
    }
    HOLDS(cell->places[3].name.entering == 1 && cell->places[3].name.exiting == 2 && cell->places[3].name.opening == 0);
    HOLDS(lists(cell, "open 2 | 5[] | 9[enter 1 | 7[exit 9] | 8/1/2/0[]]"));
    for (int turn = 0; turn < 7; turn++)
        HOLDS(keeper_refusal(keeper_step(cell, 0, 255)) == 0);
    HOLDS(lists(cell, "open 2 | 5[] | 7[] | 9[enter 1 | 8/1/2/0[]]") && keeper_count(keeper_touch(cell, 4, 3)) == 3);
}

/* The listing of what is read; and a listing that is read back is listed with the same bytes. */
static void listed(keeper_cell *cell)
{
    static const char *const rows[][2] = {
        {"9[] | 7/7/7/7[]", "7[] | 9[]"},
        {"7[] | 70[] | 7/1/1/1[] | open 9 | enter 9", "enter 9 | open 9 | 7/1/1/1[] | 70[] | 7[]"},
        {"open 1.exit 2.enter 65535 | 65535/0/65535/1[]", "open 1.exit 2.enter 65535 | 65535/0/65535/1[]"},
        {"release 10 | open 9 | release 1.exit 1 | 7[release 1]", "open 9 | release 1.exit 1 | release 10 | 7[release 1]"},
    };
    size_t length;

    for (size_t at = 0; at < sizeof rows / sizeof rows[0]; at++) {
        HOLDS(reading(cell, rows[at][0], strlen(rows[at][0])) == 0 && lists(cell, rows[at][1]));
        HOLDS(reading(cell, rows[at][1], strlen(rows[at][1])) == 0 && lists(cell, rows[at][1]));
    }
    HOLDS(reading(cell, "0", 1) == 0 && cell->used == 1 && cell->given == 0 && keeper_list(cell, listing, 1) == 1 << 8 && listing[0] == '0');
    /* the longest: 64 agents of sixteen releases and 63 places with keys */
    length = copies(0, "release 65535", ".", 16);
    for (int agent = 1; agent < 64; agent++)
        length = copies(copies(length, " | ", "", 1), "release 65535", ".", 16);
    for (int place = 0; place < 63; place++)
        length = copies(length, " | 65535/10000/65535/10000[]", "", 1);
    HOLDS(length == KEEPER_LISTING_LONGEST && reading(cell, typed, length) == 0);
    HOLDS(keeper_list(cell, listing, sizeof listing) == (keeper_answer)length << 8 && memcmp(listing, typed, length) == 0);
    /* each truncation of it is refused with 16 at its length, or is a text itself */
    for (size_t cut = 0; cut < length; cut++) {
        keeper_answer answer = keeper_read(cell, (const uint8_t *)typed, cut);

        HOLDS(answer == 0 || answer == ((keeper_answer)cut << 8 | KEEPER_OUTSIDE_LANGUAGE));
    }
}

int main(void)
{
    static keeper_cell cell;

    HOLDS(keeper_bare(&cell) == 0);
    outside(&cell);
    nothing(&cell);
    numbered(&cell);
    outside(&cell);
    nothing(&cell);
    too_many(&cell);
    listed(&cell);
    printf("%d passed, 0 failed\n", tests);
    return 0;
}
