/* Checking the dispatcher's claim: the trail of a run, kept by an ask before each step, is answered with a yes; and what is answered where a byte of it, the
** file or the listing is another. Run in this folder, or with a folder that has the files cell and order: audit FOLDER. */
#include "holds.h"

static uint8_t file[KEEPER_FILE_DECIDING];
static size_t file_length;
static uint8_t order[4096];
static size_t order_length;
static uint8_t trail[KEEPER_TRAIL_LONGEST];
static size_t trail_length;
static uint8_t text[KEEPER_LISTING_LONGEST];
static size_t text_length;

/* Reads a file of the folder. */
static size_t read_file(const char *folder, const char *name, uint8_t *bytes, size_t room)
{
    char path[512];
    size_t length;
    FILE *from;

    snprintf(path, sizeof path, "%s/%s", folder, name);
    from = fopen(path, "rb");
    if (from == NULL) {
        perror(path);
        exit(1);
    }
    length = fread(bytes, 1, room, from);
    fclose(from);
    return length;
}

/* What keeper_audit answers, of copies in memory of exactly their size, which it leaves as they were. */
static keeper_answer audited(const uint8_t *cell, size_t n, const uint8_t *moves, size_t m, const void *listing, size_t k)
{
    uint8_t *lent[3] = {exactly(cell, n), exactly(moves, m), exactly(listing, k)};
    keeper_answer answer = keeper_audit(lent[0], n, lent[1], m, lent[2], k);

    HOLDS(memcmp(lent[0], cell, n) == 0 && memcmp(lent[1], moves, m) == 0 && memcmp(lent[2], listing, k) == 0);
    for (int at = 0; at < 3; at++)
        free(lent[at]);
    return answer;
}

/* The same of the run's file, with this trail and this listing. */
static keeper_answer of_file(const uint8_t *moves, size_t m, const char *listing) { return audited(file, file_length, moves, m, listing, strlen(listing)); }

/* The answer that says no, after so many moves, for this reason. */
static keeper_answer no(uint64_t moves, unsigned reason)
{
    keeper_answer answer = (keeper_answer)moves << 16 | (keeper_answer)reason << 8;

    HOLDS(keeper_refusal(answer) == 0 && keeper_reason(answer) == reason && keeper_moves(answer) == moves);
    return answer;
}

/* The listing of the cell. */
static void list(const keeper_cell *cell)
{
    keeper_answer answer = keeper_list(cell, text, sizeof text);

    HOLDS(keeper_refusal(answer) == 0);
    text_length = keeper_length(answer);
}

/* The run of the folder's order, whose trail is kept: after each call it leads from the file to the cell's listing. */
static void run(keeper_cell *cell)
{
    trail_length = 0;
    HOLDS(keeper_load(cell, file, file_length) == 0);
    for (size_t at = 0; at + 1 < order_length; at += 2) {
        keeper_answer asked = keeper_ask(cell, order[at], order[at + 1]);
        keeper_answer answer = keeper_step(cell, order[at], order[at + 1]);

        if (keeper_refusal(answer) == 0)
            trail_length += keeper_length(keeper_trail(order[at], asked, trail + trail_length, sizeof trail - trail_length));
        list(cell);
        HOLDS(audited(file, file_length, trail, trail_length, text, text_length) == KEEPER_AUDIT_YES);
    }
}

/* Of the worked example: its trail, and the same with a byte changed, cut, made longer, with other listings, and of other files. */
static void worked(keeper_cell *cell)
{
    static const char end[] = "9[exit 7 | 7[]]", start[] = "7[enter 9] | 9[exit 7]";
    static const uint8_t right[6] = {0, 2, 0, 2, 1, 255};
    static const uint8_t nobody[4] = {2, 63, 64, 255};

    run(cell);
    HOLDS(trail_length == 2 && trail[0] == 0 && trail[1] == 2);
    HOLDS(text_length == strlen(end) && memcmp(text, end, text_length) == 0);
    HOLDS(of_file(trail, 2, end) == 0 && of_file(trail, 0, start) == 0);
    for (unsigned byte = 0; byte < 256; byte++) {
        const uint8_t changed[2] = {0, (uint8_t)byte}, other[2] = {(uint8_t)byte, 2};

        HOLDS(of_file(changed, 2, end) == (byte == 2 ? 0 : no(0, KEEPER_AUDIT_NOT_PERMITTED)));
        HOLDS(of_file(other, 2, end) == (byte == 0 ? 0 : no(0, byte == 1 ? KEEPER_AUDIT_NOT_PERMITTED : KEEPER_AUDIT_NO_ACTION)));
    }
    for (int at = 0; at < 4; at++)
        HOLDS(of_file((const uint8_t[]){0, 2, nobody[at], 255}, 4, end) == no(1, KEEPER_AUDIT_NO_ACTION));
    HOLDS(of_file(right, 4, end) == no(1, KEEPER_AUDIT_NO_ACTION));
    HOLDS(of_file((const uint8_t[]){0, 2, 1, 255}, 4, end) == no(1, KEEPER_AUDIT_NOT_PERMITTED));
    HOLDS(of_file(right, 1, end) == no(0, KEEPER_AUDIT_ODD_BYTE) && of_file(right, 3, start) == no(1, KEEPER_AUDIT_ODD_BYTE));
    HOLDS(of_file(right, 5, end) == no(2, KEEPER_AUDIT_ODD_BYTE));
    HOLDS(of_file(right, 2, start) == no(1, KEEPER_AUDIT_OTHER_LAYOUT) && of_file(right, 0, end) == no(0, KEEPER_AUDIT_OTHER_LAYOUT));
    HOLDS(of_file(right, 2, "9[exit 7 | 7[]]\n") == no(1, KEEPER_AUDIT_OTHER_LAYOUT));
    HOLDS(of_file(right, 2, "9[exit 7 | 7[]") == no(1, KEEPER_AUDIT_OTHER_LAYOUT) && of_file(right, 2, "") == no(1, KEEPER_AUDIT_OTHER_LAYOUT));
    HOLDS(audited(file, file_length, right, 2, end, sizeof end) == no(1, KEEPER_AUDIT_OTHER_LAYOUT)); /* with its closing zero byte */
}

/* A bad file is refused as a load refuses it, before an odd trail and before any move; a file of length 0 is a bare floor. */
static void bad_files(keeper_cell *cell)
{
    static const uint8_t moves[3] = {9, 9, 9};

    for (size_t at = 0; at < file_length; at++) {
        uint8_t *changed = exactly(file, file_length);
        keeper_answer loaded;

        changed[at] = 0x55;
        loaded = keeper_load(cell, changed, file_length);
        HOLDS(keeper_refusal(loaded) == 0 || audited(changed, file_length, moves, 3, "", 0) == loaded);
        HOLDS(keeper_refusal(loaded) != 0 || audited(changed, file_length, moves, 3, "", 0) == no(1, KEEPER_AUDIT_ODD_BYTE));
        loaded = keeper_load(cell, file, at);
        HOLDS(at == 0 || (keeper_refusal(loaded) != 0 && audited(file, at, moves, 2, "", 0) == loaded));
        free(changed);
    }
    HOLDS(audited(file, file_length - 1, trail, 2, "", 0) == (KEEPER_CUT_SHORT | (keeper_answer)(file_length - 1) << 8));
    HOLDS(audited(file, 0, moves, 0, "0", 1) == 0 && audited(file, 0, moves, 0, "", 0) == no(0, KEEPER_AUDIT_OTHER_LAYOUT));
    HOLDS(audited(file, 0, moves, 2, "0", 1) == no(0, KEEPER_AUDIT_NO_ACTION));
}

/* What keeper_trail writes: two bytes for left, opened and put, nothing for any other word or a refusal; 12 where they have no room. */
static void written(void)
{
    for (unsigned word = 0; word < 256; word++) {
        int moves = word == KEEPER_LEFT || word == KEEPER_OPENED || word == KEEPER_PUT;

        for (unsigned chosen = 0; chosen < 256; chosen += 51) {
            keeper_answer asked = (keeper_answer)word << 8 | 3 << 16 | (keeper_answer)chosen << 24;

            for (size_t room = 0; room < 5; room++) {
                static const uint8_t dots[4] = {'.', '.', '.', '.'};
                uint8_t *lent = exactly(dots, room);
                keeper_answer answer = keeper_trail(17, asked, lent, room);

                if (moves && room < KEEPER_MOVE_BYTES)
                    HOLDS(answer == KEEPER_LISTING_TOO_LONG && memcmp(lent, dots, room) == 0);
                else if (moves)
                    HOLDS(answer == KEEPER_MOVE_BYTES << 8 && lent[0] == 17 && lent[1] == chosen && memcmp(lent + 2, dots, room - 2) == 0);
                else
                    HOLDS(answer == 0 && memcmp(lent, dots, room) == 0);
                for (unsigned refusal = 1; refusal < 256; refusal++)
                    HOLDS(keeper_trail(17, asked | refusal, lent, room) == 0);
                free(lent);
            }
        }
    }
}

/* Release and open: two agents that take turns at a carrier, by asks and commits; a commit that is refused is not kept. What was typed has no file, so the
** cell is given as one. */
static void carrier(keeper_cell *cell)
{
    static const uint8_t turns[] = {1, 1, 0, 9, 0, 2, 0, 0, 3, 0, 3, 9, 0, 3, 0, 4, 9, 0, 2, 1, 0, 3, 1, 3, 9, 0, 3, 1, 4, 9, 0, 4};
    static const uint8_t expected[8] = {0, 1, 0, 255, 1, 1, 1, 255};
    int refusals = 0;

    trail_length = 0;
    HOLDS(keeper_load(cell, turns, sizeof turns) == 0);
    while (!keeper_all_rest(keeper_idle(cell))) {
        for (uint8_t agent = 0; agent < 2; agent++) {
            keeper_answer asked = keeper_ask(cell, agent, 255);

            for (int again = 0; again < 2; again++) {
                if (keeper_refusal(keeper_commit(cell, agent, 255, asked)) == 0)
                    trail_length += keeper_length(keeper_trail(agent, asked, trail + trail_length, sizeof trail - trail_length));
                else
                    refusals++;
            }
            list(cell);
            HOLDS(audited(turns, sizeof turns, trail, trail_length, text, text_length) == 0);
        }
    }
    HOLDS(refusals > 5 && trail_length == 8 && memcmp(trail, expected, 8) == 0 && text_length == 3 && memcmp(text, "9[]", 3) == 0);
    HOLDS(audited(turns, sizeof turns, (const uint8_t[]){0, 1, 0, 1}, 4, "", 0) == no(1, KEEPER_AUDIT_NOT_PERMITTED));
    HOLDS(audited(turns, sizeof turns, (const uint8_t[]){0, 1, 1, 1}, 4, "", 0) == no(1, KEEPER_AUDIT_NOT_PERMITTED));
    HOLDS(audited(turns, sizeof turns, (const uint8_t[]){0, 255}, 2, "", 0) == no(0, KEEPER_AUDIT_NOT_PERMITTED));
}

/* A trail of two megabytes is denied at its first wrong move. */
static void long_trail(void)
{
    size_t length = (size_t)2 << 20;
    uint8_t *moves = calloc(length, 1);

    HOLDS(moves != NULL);
    moves[1] = 2;
    HOLDS(keeper_audit(file, file_length, moves, length, text, 0) == no(1, KEEPER_AUDIT_NO_ACTION));
    HOLDS(keeper_audit(file, file_length, moves, length - 1, text, 0) == no(length / 2 - 1, KEEPER_AUDIT_ODD_BYTE));
    free(moves);
}

int main(int count, char **words)
{
    static keeper_cell cell;
    static const char *const texts[6] = {"yes", "not permitted", "no action left", "odd last byte", "other layout", "unknown"};
    const char *folder = count > 1 ? words[1] : "../../examples/worked";

    file_length = read_file(folder, "cell", file, sizeof file);
    order_length = read_file(folder, "order", order, sizeof order);
    if (count > 1) {
        run(&cell);
        printf("%zu moves\n", trail_length / 2);
        return 0;
    }
    for (unsigned reason = 0; reason < 6; reason++)
        HOLDS(strcmp(keeper_reason_text(reason), texts[reason]) == 0);
    worked(&cell);
    bad_files(&cell);
    written();
    carrier(&cell);
    long_trail();
    printf("%d passed, 0 failed\n", tests);
    return 0;
}
