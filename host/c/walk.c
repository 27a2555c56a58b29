/*
** A host: reads a cell file, or a layout that was typed, and an order of pairs agent, wish, steps through it, and prints what each step did.
**
**     walk [--gripper] [CELL [ORDER]]
**     walk [--gripper] --text TEXT [ORDER]
**
** The files are `cell` and `order` unless named. An absent file reads as empty, and an empty cell file is a bare floor; an odd last byte and
** pairs past the limit are passed over. A file that is there and cannot be read is a line on standard error, and nothing is printed.
**
** TEXT holds one line, a layout as the listing writes it; the line end after it, LF or CR LF, is not part of the text. Where it is refused,
** the text is printed too, with a caret under the byte where it goes wrong. A text of 65,536 bytes or more is not read.
**
** With --gripper each step is asked for, and then committed. Where a place would leave or be opened, the gripper is parked between the two, and
** a line before that of the step says so. The other lines are the same.
*/
#include "../keeper.h"

#include <errno.h>
#include <inttypes.h>
#include <stdio.h>
#include <stdlib.h>
#include <string.h>

/* How many pairs of an order are taken. */
#define PAIRS 16384

/* A text file has fewer bytes than this. */
#define TEXT_BYTES 65536

/* How many bytes of a refused text are shown, at most, and how many of them before the faulty one where the text is longer. */
#define SHOWN 72
#define BEFORE 40

/* Ends the program where a file cannot be read: it must not pass for an empty one, which is accepted. */
static void unreadable(const char *name)
{
    perror(name);
    exit(1);
}

/* Reads the file's first bytes, up to `room`, and answers how many there were; of an absent file there are none. */
static size_t read_file(const char *name, uint8_t *bytes, size_t room)
{
    FILE *file = fopen(name, "rb");
    size_t length;

    if (file == NULL && errno == ENOENT)
        return 0;
    if (file == NULL)
        unreadable(name);
    length = fread(bytes, 1, room, file);
    if (ferror(file))
        unreadable(name);
    fclose(file);
    return length;
}

/* The length of the line without the end that an editor writes after it. */
static size_t line_length(const uint8_t *text, size_t length)
{
    if (length > 0 && text[length - 1] == '\n') {
        length--;
        if (length > 0 && text[length - 1] == '\r')
            length--;
    }
    return length;
}

/* Prints the part of a text about this byte, with question marks for what cannot be printed, and a caret under the byte. */
static void print_caret(const uint8_t *text, size_t length, size_t offset)
{
    size_t from = length > SHOWN && offset > BEFORE ? offset - BEFORE : 0;

    for (size_t at = from; at < length && at < from + SHOWN; at++)
        putchar(text[at] >= 32 && text[at] <= 126 ? text[at] : '?');
    printf("\n%*s^\n", (int)(offset - from), "");
}

/* Prints a line of a word and the listing. */
static void print_listing(const char *word, const keeper_cell *cell)
{
    static uint8_t text[KEEPER_LISTING_LONGEST];
    keeper_answer answer = keeper_list(cell, text, sizeof text);

    printf("%s %.*s\n", word, (int)keeper_length(answer), (const char *)text);
}

/* Parks the gripper, which must not reach into a place that leaves or is opened. A host that has one tells its drive here, and waits until it
** is parked; meanwhile other parts of that host may step other agents. This host has none and prints a line. */
static void park_gripper(const keeper_cell *cell, uint8_t agent, keeper_answer asked)
{
    if (keeper_word(asked) == KEEPER_OPENED)
        printf("gripper parked: place %u will be opened\n", keeper_chosen(asked));
    else if (keeper_chosen(asked) != KEEPER_NONE_CHOSEN)
        printf("gripper parked: place %d will leave for place %u\n", cell->agents[agent].home, keeper_chosen(asked));
    else
        printf("gripper parked: place %d will leave\n", cell->agents[agent].home);
}

/* Makes the step with the gripper parked: asks what it would do, parks the gripper if a place would leave or be opened, and commits. If the
** step would do something else by then, nothing has been done, and it is asked for again. */
static keeper_answer parked_step(keeper_cell *cell, uint8_t agent, uint8_t wish)
{
    keeper_answer answer;

    do {
        keeper_answer asked = keeper_ask(cell, agent, wish);
        unsigned word = keeper_word(asked);

        if (keeper_refusal(asked) == 0 && (word == KEEPER_LEFT || word == KEEPER_OPENED))
            park_gripper(cell, agent, asked);
        answer = keeper_commit(cell, agent, wish, asked);
    } while (keeper_refusal(answer) == KEEPER_ANSWER_DIFFERS);
    return answer;
}

/* Makes the step, with the gripper or without, and prints a line of the agent, the answer and the number woken. */
static void print_step(keeper_cell *cell, uint8_t agent, uint8_t wish, int gripper)
{
    keeper_answer answer = gripper ? parked_step(cell, agent, wish) : keeper_step(cell, agent, wish);

    if (keeper_refusal(answer) != 0)
        printf("%d refused %u\n", agent, keeper_refusal(answer));
    else
        printf("%d %s %u\n", agent, keeper_word_name(keeper_word(answer)), keeper_woken(answer));
}

/* Makes the cell what the file says; where it is refused, prints that and ends the program. */
static void load(keeper_cell *cell, const char *name)
{
    static uint8_t file[KEEPER_FILE_DECIDING];
    keeper_answer answer = keeper_load(cell, file, read_file(name, file, sizeof file));

    if (keeper_refusal(answer) != 0) {
        printf("refused %u %zu\n", keeper_refusal(answer), keeper_offset(answer));
        exit(0);
    }
}

/* Makes the cell what the typed text says; where it is refused, prints that and ends the program. A text has to be read whole. */
static void read_text(keeper_cell *cell, const char *name)
{
    static uint8_t text[TEXT_BYTES];
    size_t length = read_file(name, text, sizeof text);
    keeper_answer answer;

    if (length == sizeof text) {
        fprintf(stderr, "walk: %s: longer than %d bytes\n", name, TEXT_BYTES - 1);
        exit(1);
    }
    length = line_length(text, length);
    answer = keeper_read(cell, text, length);
    if (keeper_refusal(answer) != 0) {
        printf("refused %u %zu\n", keeper_refusal(answer), keeper_offset(answer));
        print_caret(text, length, keeper_offset(answer));
        exit(0);
    }
}

int main(int count, char **names)
{
    static keeper_cell cell;
    static uint8_t order[2 * PAIRS];
    int gripper = count > 1 && strcmp(names[1], "--gripper") == 0;
    int typed;
    size_t order_length;

    count -= gripper;
    names += gripper;
    typed = count > 1 && strcmp(names[1], "--text") == 0;
    if (!keeper_fits()) {
        fprintf(stderr, "libkeeper.a has version %#" PRIx64 " and cells of %" PRIu64 " bytes; this host was made for %#x and %d\n",
                keeper_version(), keeper_cell_bytes(), (unsigned)KEEPER_VERSION, KEEPER_CELL_BYTES);
        return 1;
    }
    if (typed && count == 2) {
        fprintf(stderr, "usage: walk [--gripper] [CELL [ORDER]] or walk [--gripper] --text TEXT [ORDER]\n");
        return 1;
    }
    order_length = read_file(count > 2 + typed ? names[2 + typed] : "order", order, sizeof order);
    keeper_bare(&cell);
    if (typed)
        read_text(&cell, names[2]);
    else
        load(&cell, count > 1 ? names[1] : "cell");
    print_listing("start", &cell);
    for (size_t at = 0; at + 1 < order_length; at += 2)
        print_step(&cell, order[at], order[at + 1], gripper);
    print_listing("end", &cell);
    return 0;
}
