/*
** keeper.h: the cell keeper, for hosts in C11 and C++11 on x86-64 Linux.
**
** A cell holds places nested in each other and agents that move them, one lock step at a time. The host lends the memory of a cell and
** calls the keeper once per lock step. The keeper allocates nothing, keeps nothing between calls, reads no clock and no file, and calls
** memcpy and memset and nothing else outside itself. Every call ends, and every input is accepted or refused with a number; a refused
** call leaves the cell and every lent buffer as they were. (A card's window is there to be told of a refusal, and is: keeper_command.)
**
** In short:
**
**     keeper_cell cell;
**     keeper_answer answer;
**
**     if (!keeper_fits())
**         return 1;
**     keeper_bare(&cell);
**     answer = keeper_load(&cell, file, length);
**     if (keeper_refusal(answer) != 0)
**         printf("refused %s at byte %zu\n", keeper_refusal_text(keeper_refusal(answer)), keeper_offset(answer));
**
** or, where the layout was typed by hand (the text's size counts its closing zero byte, which is not part of the line):
**
**     static const char line[] = "7[enter 9] | 9[exit 7]";
**
**     answer = keeper_read(&cell, (const uint8_t *)line, sizeof line - 1);
**     if (keeper_refusal(answer) != 0)
**         printf("%s\n%*s^ %s\n", line, (int)keeper_offset(answer), "", keeper_refusal_text(keeper_refusal(answer)));
**
** and then
**
**     answer = keeper_step(&cell, agent, wish);
**     if (keeper_refusal(answer) == 0)
**         printf("%s, %u woken\n", keeper_word_name(keeper_word(answer)), keeper_woken(answer));
**     answer = keeper_ask(&cell, agent, wish);
**     if (keeper_refusal(answer) == 0 && keeper_word(answer) == KEEPER_LEFT)
**         park_the_gripper_that_is_over(cell.agents[agent].home);
**     answer = keeper_commit(&cell, agent, wish, answer);
**     if (keeper_refusal(answer) == KEEPER_ANSWER_DIFFERS)
**         printf("another step came between: ask again\n");
**     window.command = KEEPER_COMMAND_STEP, window.agent = agent, window.wish = wish, window.mask = KEEPER_FLAG_WOKE | KEEPER_FLAG_REST;
**     keeper_command(&cell, &window);
**     if (window.line == 1)
**         keeper_clear(&window, window.flags);
**     answer = keeper_touch(&cell, place, touches);
**     if (keeper_refusal(answer) == 0)
**         printf("%llu touches\n", (unsigned long long)keeper_count(answer));
**     answer = keeper_nearest(&cell, holder, name_of_bonders);
**     if (keeper_refusal(answer) == 0 && keeper_found(answer) != KEEPER_NOWHERE)
**         printf("the holder is in place %u\n", keeper_found(answer));
**     answer = keeper_ceiling(&cell);
**     if (keeper_refusal(answer) == 0)
**         printf("at rest after %llu changes or sooner\n", (unsigned long long)keeper_most_changes(answer));
**     answer = keeper_list(&cell, text, sizeof text);
**     if (keeper_refusal(answer) == 0)
**         printf("%.*s\n", (int)keeper_length(answer), (const char *)text);
**     answer = keeper_audit(file, length, trail, trail_length, text, keeper_length(answer));
**     if (keeper_refusal(answer) == 0 && keeper_reason(answer) != KEEPER_AUDIT_YES)
**         printf("%s after %llu moves\n", keeper_reason_text(keeper_reason(answer)), (unsigned long long)keeper_moves(answer));
**
** What the caller owes, in every call:
**
**   - A pointer is not null, also where the length given with it is 0, and stays valid for the whole call. A cell is aligned as its type
**     asks; files, texts, trails and windows may stand anywhere. Where the length is 0, nothing is read or written through the pointer, so any that is not
**     null will do: that of an array, or one past its end.
**   - A cell has been written before any call but keeper_bare, by that call or in any other way (all zeros will do): the keeper takes
**     every bit pattern, and refuses one that is not a sound table with 10, but it does read it.
**   - A file, text or window lent together with a cell does not overlap it. Those lent to keeper_audit, which reads them only, may overlap.
**   - During the call no other thread writes what is lent, nor reads what the call may write; the card writes its own bytes of a window when it
**     likes (keeper_window). So calls on different cells may run at the same
**     time; and on one cell those that only read it (keeper_ask, keeper_list, keeper_check, keeper_idle, keeper_touches, keeper_nearest,
**     keeper_common, keeper_ceiling), each with a text of its own. keeper_audit and keeper_trail take no cell.
**   - The stack has room for KEEPER_STACK bytes.
*/
#ifndef KEEPER_H
#define KEEPER_H

#include <stddef.h>
#include <stdint.h>

#ifdef __cplusplus
extern "C" {
#define KEEPER_ASSERT(holds, text) static_assert(holds, text)
#else
#define KEEPER_ASSERT(holds, text) _Static_assert(holds, text)
#endif

/*
** The version of this header. A library says its own by keeper_version. The major number changes when a host has to be changed or compiled
** anew: another layout of a cell, other arguments, another meaning of an answer. The minor number changes when something is added: a
** call, a word, a refusal. The patch number changes with anything else.
*/
#define KEEPER_MAJOR 6
#define KEEPER_MINOR 3
#define KEEPER_PATCH 0
#define KEEPER_VERSION (KEEPER_MAJOR * 65536 + KEEPER_MINOR * 256 + KEEPER_PATCH)

/* Places are numbered 0 to 63, and 0 is the floor; agents are numbered 0 to 63; an agent carries sixteen actions at most. */
#define KEEPER_PLACES 64
#define KEEPER_AGENTS 64
#define KEEPER_ACTIONS 16

/* The lock of a place that no agent holds. */
#define KEEPER_FREE 64

/* What an agent remembers that sleeps on no place: one whose next action is a release and that found all place numbers in use. */
#define KEEPER_NO_PLACE 64

/* What keeper_ask tells where there is no chosen place, and what a trail has in place of one for an exit and a release. */
#define KEEPER_NONE_CHOSEN 255

/* What keeper_nearest answers where no place around the given one has the name. */
#define KEEPER_NOWHERE 255

/* The touches that the places in use may have together, at most. */
#define KEEPER_TOUCHES_MOST 1000000000000

/* The size of a cell in bytes. */
#define KEEPER_CELL_BYTES 5776

/* The longest cell file that can be accepted; and how many bytes of a file, at its start, always decide the answer to it: a host may
** read that many of a longer file and lend those. Both are proved (crates/lengths, `accepted_longest` and `prefix`). */
#define KEEPER_FILE_LONGEST 6390
#define KEEPER_FILE_DECIDING 6400

/* The longest listing: with a buffer of this size, keeper_list never answers 12 (proved: crates/lengths, `listing_longest`, `enough_room`).
** No text that keeper_read accepts is longer (counted and not proved); which refusal a longer one gets, only the whole of it decides. */
#define KEEPER_LISTING_LONGEST 16225

/* How many bytes a trail has for a move; and the longest trail of a run from one load: every move uses up an action, and a cell has 64 times sixteen
** (counted and not proved). A trail that is longer, from any cell, is never answered with a yes. */
#define KEEPER_MOVE_BYTES 2
#define KEEPER_TRAIL_LONGEST 2048

/* The stack that a call uses, in bytes, at most. This is measured and not proved: host/c/stack.c measures it on the libraries at hand and fails where it
** is more; keeper_audit needs the most, which has a cell and a page for the listing inside, and of the keeper's calls keeper_list. KEEPER_AUDIT_STACK is
** a name for the same number. */
#define KEEPER_STACK 65536
#define KEEPER_AUDIT_STACK KEEPER_STACK

/*
** Place numbers are given again. An opening (the word opened) takes the number of the opened place out of use, and a release (the word put) puts
** its place under the smallest number that is unused, which may be one that an opening freed: then it is another place, with a name and
** touches of its own. So a host that keeps something by place number, such as a gripper over it, forgets it when the place is opened, and
** learns of the new place when a step answers put: its number is the lowest bit of `used` that is 0 before that step. A cell in which no
** action is a release never gets a place that its file or text did not give.
*/

/*
** The memory of a cell. It is plain data: a host may copy it, keep it in a file for the same kind of machine and the same KEEPER_MAJOR, and
** read its fields. A host that takes a kept cell back asks keeper_check first. A cell that a host of version 4 or 5 kept is one of version 6 too.
** Those of versions 1, 2 and 3 have 4816, 5328 and 5392 bytes, by which a host knows them, and have to be loaded again. A host
** that writes the fields itself can make the table unsound; keeper_check tells. Fields of numbers that are not in use mean nothing; but every
** place number stands in `order`. Nor does the byte between an action's kind and its name: no answer depends on it, and what it holds after a
** call, a refused one too, is not promised. A host that compares cells compares their fields.
*/

/* A name with its three keys, which say who may enter, leave and open the place: `enter n` acts on a place whose `entering` is n, `exit n`
** on one whose `exiting` is n, `open n` on one whose `opening` is n. A key of 0 fits no action: nobody may. `name` is what the place is
** called and listed by, and decides nothing of this. In a cell file a place record of kind 1 sets all three keys to the name, one of kind 6
** gives each of them; of a place that a release puts, all three are the name. Steps and touch calls change no name and no key of a place that
** stays in use. */
typedef struct keeper_name {
    uint16_t name;
    uint16_t entering;
    uint16_t exiting;
    uint16_t opening;
} keeper_name;

/* A place: its name with its keys, and `way` is 0 where it is linked to `parent`, else it is on its way to `parent`. The floor has name 0,
** keys 0, parent 0 and way 1; a table whose floor has another name or key is unsound. */
typedef struct keeper_place {
    keeper_name name;
    uint8_t parent;
    uint8_t way;
} keeper_place;

/* An action: 1 enter, 2 exit, 3 open, 4 release; and in `name` the number that the key of that kind must be on the place that it acts on.
** Where a place has no keys of its own (kind 1), that is its name. A release acts on no place: its number is the name, and each key, of the
** place that it puts. */
typedef struct keeper_action {
    uint8_t kind;
    uint16_t name;
} keeper_action;

/* An agent: the place it lives in, its stage (0 to 8), the place it remembers (stages 1 to 3 and 7; at stage 7, where its next action is a
** release, also KEEPER_NO_PLACE), the place it has chosen (stage 3 of enter and open), and its actions, of which actions[next] to
** actions[count - 1] are unused. */
typedef struct keeper_agent {
    uint8_t home;
    uint8_t stage;
    uint8_t remembered;
    uint8_t chosen;
    uint8_t next;
    uint8_t count;
    keeper_action actions[KEEPER_ACTIONS];
} keeper_agent;

/* A cell: its places, for each the agent that holds its lock or KEEPER_FREE, its agents, the numbers of places (`used`) and agents
** (`given`) that are in use, bit i for number i, for each place its touch count, and in `order` all place numbers, 0 to 63, each once: of
** places linked to one parent the one that has been there longest comes first. The floor and numbers that are not in use stand in it
** too, anywhere. */
typedef struct keeper_cell {
    keeper_place places[KEEPER_PLACES];
    uint8_t locks[KEEPER_PLACES];
    keeper_agent agents[KEEPER_AGENTS];
    uint64_t used;
    uint64_t given;
    uint64_t touches[KEEPER_PLACES];
    uint8_t order[KEEPER_PLACES];
} keeper_cell;

KEEPER_ASSERT(sizeof(keeper_name) == 8 && offsetof(keeper_name, entering) == 2, "keeper_name has 8 bytes");
KEEPER_ASSERT(offsetof(keeper_name, exiting) == 4 && offsetof(keeper_name, opening) == 6, "keeper_name");
KEEPER_ASSERT(sizeof(keeper_place) == 10, "keeper_place has 10 bytes");
KEEPER_ASSERT(offsetof(keeper_place, parent) == 8 && offsetof(keeper_place, way) == 9, "keeper_place");
KEEPER_ASSERT(sizeof(keeper_action) == 4 && offsetof(keeper_action, name) == 2, "keeper_action has 4 bytes");
KEEPER_ASSERT(sizeof(keeper_agent) == 70, "keeper_agent has 70 bytes");
KEEPER_ASSERT(offsetof(keeper_agent, stage) == 1 && offsetof(keeper_agent, remembered) == 2, "keeper_agent");
KEEPER_ASSERT(offsetof(keeper_agent, chosen) == 3 && offsetof(keeper_agent, next) == 4, "keeper_agent");
KEEPER_ASSERT(offsetof(keeper_agent, count) == 5 && offsetof(keeper_agent, actions) == 6, "keeper_agent");
KEEPER_ASSERT(sizeof(keeper_cell) == KEEPER_CELL_BYTES, "keeper_cell has 5776 bytes");
KEEPER_ASSERT(offsetof(keeper_cell, locks) == 640 && offsetof(keeper_cell, agents) == 704, "keeper_cell");
KEEPER_ASSERT(offsetof(keeper_cell, used) == 5184 && offsetof(keeper_cell, given) == 5192, "keeper_cell");
KEEPER_ASSERT(offsetof(keeper_cell, touches) == 5200 && offsetof(keeper_cell, order) == 5712, "keeper_cell");

/* The numbers with which a call is refused, and what to do about each (more on it: docs/MEANING.md, section 7). Of a cell file, 3 is for
** the number that a place record gives, 13 for a parent (of a place) or home (of an agent), 14 for the number of an agent, in an agent or
** an action record; of the three the earlier byte in the record decides. A step, an ask or a commit for an agent above 63 is 11. Of
** touches, in a record and in a call, and of the places that keeper_nearest and keeper_common are asked about, 3 is for one above 63, and 5
** for one that is not there. A place record with keys (kind 6) is tested as one without (kind 1); 6 is for its name alone, and its keys may
** be any numbers. 16 and 17 are keeper_read's, and it has no others. 18 is keeper_commit's. Of keeper_audit they are those of keeper_load, of the file that
** it is lent, with their offsets; of keeper_trail there is 12 alone. A window's answer has 10 and 11, with KEEPER_WINDOW_REFUSED added. */
enum {
    KEEPER_CUT_SHORT = 1,           /* copy the file anew; put the byte 4 at its end */
    KEEPER_UNKNOWN_KIND = 2,        /* look at the record before it too: a byte too many or too few there shifts all that follows */
    KEEPER_TOO_LARGE = 3,           /* number places 1 to 63 and do not give the floor; in a call, correct the place's number */
    KEEPER_GIVEN_TWICE = 4,         /* give each number once, and each place's touches once, also where they are 0 */
    KEEPER_NOT_YET_GIVEN = 5,       /* put parents before what stands in them, agents before their actions, places before their touches; in a
                                       call: if the place was opened, what stood in it stands in the opener's place now, which has its touches
                                       too: add further ones there; until a release gives its number to another place */
    KEEPER_NAME_ZERO = 6,           /* use 1 to 65,535, and mind the low byte first */
    KEEPER_ACTION_KIND = 7,         /* 1 is enter, 2 exit, 3 open, 4 release */
    KEEPER_SEVENTEENTH_ACTION = 8,  /* give an agent sixteen at most; a second agent of the same place can take the rest */
    KEEPER_AFTER_THE_END = 9,       /* cut the file there, or move the end record to the end */
    KEEPER_UNSOUND = 10,            /* somebody else wrote the cell, or it was restored from a damaged copy: load again */
    KEEPER_NO_SUCH_AGENT = 11,      /* correct the order: the cell has no agent of that number */
    KEEPER_LISTING_TOO_LONG = 12,   /* lend a larger text; KEEPER_LISTING_LONGEST bytes are enough for every cell; of keeper_trail, lend room for two
                                       bytes more; KEEPER_TRAIL_LONGEST bytes are enough for every run */
    KEEPER_PARENT_TOO_LARGE = 13,   /* look at the record's third byte: it names a place, 0 to 63 */
    KEEPER_AGENT_TOO_LARGE = 14,    /* look at the record's second byte, and number agents 0 to 63 */
    KEEPER_TOO_MANY_TOUCHES = 15,   /* no line comes near that many: find out who adds them */
    KEEPER_OUTSIDE_LANGUAGE = 16,   /* show the text with a caret under the offset's byte: all bytes before it are right */
    KEEPER_TOO_MANY = 17,           /* leave something out: the text itself is right, but the layout is too large for one cell */
    KEEPER_ANSWER_DIFFERS = 18      /* ask again: since the ask, or for this number, the step would answer otherwise */
};

/* The words that a step answers, an ask tells and a commit answers. */
enum {
    KEEPER_LOOKED = 0,
    KEEPER_TOOK = 1,
    KEEPER_HELD = 2,
    KEEPER_BACK = 3,
    KEEPER_SLEPT = 4,
    KEEPER_LEFT = 5,
    KEEPER_CAME = 6,
    KEEPER_OPENED = 7,
    KEEPER_PUT = 8,
    KEEPER_ASLEEP = 9,
    KEEPER_DONE = 10
};

/* What keeper_audit says of a trail from an accepted file: yes, or why not. */
enum {
    KEEPER_AUDIT_YES = 0,           /* every move is permitted, and the layout after the last one has the given listing */
    KEEPER_AUDIT_NOT_PERMITTED = 1, /* the next action of the move's agent cannot be made there: the byte names a place that the action does not act on, or
                                       is not 255 for an exit or a release, or the action is not one that the calculus permits in the layout reached */
    KEEPER_AUDIT_NO_ACTION = 2,     /* the agent of the move is not given in the file, or has no action left */
    KEEPER_AUDIT_ODD_BYTE = 3,      /* the trail ends in half a move: it was cut, or a byte is missing; none of its moves was looked at */
    KEEPER_AUDIT_OTHER_LAYOUT = 4   /* all moves are permitted, and the layout after them has another listing than the given one */
};

/*
** What a call answers, in one number: bits 0 to 7 are 0, or the number with which the call was refused. The bits above are, for keeper_load
** and keeper_read, the offset of a refusal; for keeper_step and keeper_commit, the word (bits 8 to 15) and the number woken (bits 16 to 23);
** for keeper_ask, these two and the chosen place (bits 24 to 31); for keeper_list, the length; for keeper_idle, 1 if all agents are asleep or
** done; for keeper_touch and keeper_touches, the place's touch count; for keeper_nearest and keeper_common, the place that was found (bits 8
** to 15); for keeper_ceiling, how many step calls can still change the cell; for keeper_audit, the offset of a refusal, else the reason (bits 8 to 15)
** and the moves before it (from bit 16 on); for keeper_trail, how many bytes it wrote. Where nothing is named, a bit is 0. The functions at the end
** of this file take it apart.
*/
typedef uint64_t keeper_answer;

/* keeper_version: the library's version, as KEEPER_VERSION is written. */
uint64_t keeper_version(void);

/* keeper_cell_bytes: the size of a cell in bytes, as the library keeps it. */
uint64_t keeper_cell_bytes(void);

/*
** keeper_fits: 1 if the linked library is one that this header describes, else 0. It has the same major number, this minor number or a
** later one, and a cell of this size. A host asks it once, before the first call; where it is 0, no other call may be made.
*/
static inline int keeper_fits(void)
{
    return keeper_version() >> 16 == KEEPER_MAJOR && keeper_version() >> 8 >= KEEPER_VERSION >> 8
        && keeper_cell_bytes() == sizeof(keeper_cell);
}

/*
** keeper_bare: makes the cell a bare floor, with no other place and no agent.
**
** Answers 0; it is never refused.
*/
keeper_answer keeper_bare(keeper_cell *cell);

/*
** keeper_load: makes the cell what the cell file in file[0] to file[len - 1] says. A file of length 0 (len is 0, and file not null all the
** same) is accepted as a bare floor with no agents, as the file of the one byte 4 is. A file that begins and lacks its end is cut short.
** Any other file is a row of records, each a byte of kind and a body; numbers of two and of four bytes have the low byte first:
**
**     kind  bytes  what                   the body, one byte for each number unless it says otherwise
**     1     5      a place                number (1 to 63), parent (0 to 63), name (2 bytes, from 1 on)
**     2     3      an agent               number (0 to 63), the place that it lives in (0 to 63)
**     3     5      an action              agent, kind (1 enter, 2 exit, 3 open, 4 release), its number (2 bytes, from 1 on); after the agent's
**                                         earlier ones
**     4     1      the end                nothing; it stands last
**     5     6      touches of a place     place (0 to 63), count (4 bytes); once for each place
**     6     11     a place with its keys  number, parent, name (2 bytes), keys for entering, exiting and opening (2 bytes each)
**
** What a record names has been given before it; the floor, place 0, always is. docs/MEANING.md has a file byte by byte (section 4) and every
** refusal with what to do about it (section 7).
**
** Answers 0 if the file was accepted. Else keeper_refusal(answer) is a number from 1 to 9, or 13 or 14, keeper_offset(answer) is the byte
** offset of the first faulty record (for a missing end record, the file's length; for 9, the first byte after the end record), and the cell
** is as it was. Within a record the order of the tests is 2, 1, then 3, 13 and 14 by the place of the byte, then 4, 5, 7, 6, 8. What the
** cell held before plays no part in the answer, so it is never 10. The file is only read. A place for which the file has no touch record
** has the count 0; one whose record has no keys (kind 1) has its name as each of them.
*/
keeper_answer keeper_load(keeper_cell *cell, const uint8_t *file, size_t len);

/*
** keeper_read: makes the cell what the text in text[0] to text[length - 1] says, which a person may have typed. A text is one line in the
** language of the listing (keeper_list):
**
**     0                                 a bare floor: nothing on the line. A 0 stands for that alone, never inside a place
**     7[]                               a place named 7 with nothing in it
**     9[7[] | 8[]]                      places in a place: parts side by side have a bar between them, with one space on each side of it
**     7[enter 9.exit 9] | 9[]           an agent in place 7 with two actions, joined by a dot; actions are enter, exit, open and release
**     20/20/20/0[]                      a place with its keys for entering, exiting and opening; left off, each of them is the name
**
** Numbers are decimal without leading zeros: names and those of actions 1 to 65535, keys 0 to 65535. Parts may stand in any order, agents
** among places too. There are no other spaces, no line end and no closing zero byte: the length alone says where the text ends, and a host
** that reads lines leaves their ends off. The pointer is not null, also where length is 0; then nothing is read through it, and the answer
** is 16 at byte 0, since every text has at least one byte.
**
** Places are numbered from 1 and agents from 0 in the order in which their first bytes stand in the text, an outer place before those in
** it. Touches are 0, and of places under one parent the one that stands first counts as having been there longest. For every other call the
** cell is one that was loaded. Its listing says the same as the text, in the listing's order: `9[] | 7/7/7/7[]` is listed as `7[] | 9[]`.
** Every listing can be read, and the listing of what was read has the same bytes.
**
** Answers 0 if the text was read. Else the cell is as it was, and keeper_refusal(answer) is
**
**     16   the text is not one of the language. keeper_offset(answer) is the first byte that cannot stand there, whatever follows it:
**          `07[]` at 1, `7[0]` at 2, `65536[]` at 4, `7[] |9[]` at 5, `7[]` with a line end at 3; the text's length where it stops too
**          early, as `7[` at 2. Show the person the text with a caret under that byte: all bytes before it are right.
**     17   the text is one of the language and has more than 63 places, more than 64 agents, or an agent with more than sixteen actions;
**          keeper_offset(answer) is the text's length. The layout does not fit a cell: something has to be left out.
**
** A text with both faults is refused with 16. What the cell held before plays no part, so the answer is never 10. The text is only read.
*/
keeper_answer keeper_read(keeper_cell *cell, const uint8_t *text, size_t length);

/*
** keeper_step: one lock step of an agent. `wish` is the number of the place that an enter or open should choose where several qualify. It
** counts in the call in which the agent, holding its first lock, chooses. A wish for a place that does not qualify, or for none, such as
** 255, is passed over, and of the places that qualify the one is chosen that has been under its parent longest: first in, first served.
** Loaded places count in file order, those of a text in its order. A place that comes or is put is the latest, and so are those that an
** opening frees, which keep their order. Which places qualify, their keys say (keeper_name).
**
** Answers, in keeper_word(answer), what the agent did, and in keeper_woken(answer) how many sleeping agents that woke:
**
**     looked   it found the place that it will lock first
**     took     it took a lock
**     held     the lock that it needs is held by another agent; nothing changed
**     back     its action no longer fires, or its place has moved: it gave its locks back and will look again
**     slept    its action cannot fire; it holds no lock and sleeps until another agent's step wakes it. A release sleeps where all 64 place
**              numbers are in use, on no place (KEEPER_NO_PLACE), until any opening, which frees one and wakes all that sleep so
**     left     its place left and is on its way; the action is used up
**     came     its place came to its destination
**     opened   it opened a place: what was inside stands in the agent's own place now, the opened place's touches are added to those of
**              the agent's own place, and the opened place's number is unused; the action is used up
**     put      it put a new empty place into its own place, under the smallest number that was unused: its name and its three keys are the
**              action's number, its touch count is 0, and it is the latest there; those who sleep on the agent's own place, such as an
**              opener that waits for it, are woken; the action is used up
**     asleep   it sleeps; nothing changed
**     done     it has no action left; nothing changed
**
** Refused with 10 where the table is unsound, else with 11 where no such agent is in the cell; then the cell is as it was.
*/
keeper_answer keeper_step(keeper_cell *cell, uint8_t agent, uint8_t wish);

/*
** keeper_ask: what keeper_step with this agent and this wish would answer, and which place it would choose. No step is made; the cell is only
** read. It is for a host that has something to do before a step is made, such as to park a gripper before the place under it leaves:
**
**     keeper_answer asked = keeper_ask(&cell, agent, wish);       what would it do?
**     if keeper_word(asked) is KEEPER_LEFT                         the agent's own place, cell.agents[agent].home, would leave
**         park the gripper                                         which takes time; other agents may step meanwhile
**     keeper_answer answer = keeper_commit(&cell, agent, wish, asked);
**     if keeper_refusal(answer) is KEEPER_ANSWER_DIFFERS           it would do something else now, and has done nothing
**         ask again
**
** Answers, in keeper_word(answer) and keeper_woken(answer), what keeper_step would answer there, and in keeper_chosen(answer) the place: the
** one that an enter would enter or that an open would open. It is told where the agent holds its first lock (stage 2) and its action fires,
** also where the word is held, and where it holds both (stage 3) and its action still fires. Everywhere else, and for every exit and every
** release, it is KEEPER_NONE_CHOSEN: where the agent has not come so far, is on its way, sleeps or is done, and where the word is slept, back
** or put. The number as a whole is
**
**     bits 0 to 7      0, or the refusal
**     bits 8 to 15     the word
**     bits 16 to 23    how many sleeping agents it would wake
**     bits 24 to 31    the chosen place, or KEEPER_NONE_CHOSEN
**
** and 0 above. Refused with 10 where the table is unsound, else with 11 where no such agent is in the cell.
*/
keeper_answer keeper_ask(const keeper_cell *cell, uint8_t agent, uint8_t wish);

/*
** keeper_commit: makes the step of this agent with this wish, if it is still the one that was asked for. `asked` is the very number that
** keeper_ask answered for the same agent and wish; a host hands it back and need not read it.
**
** If keeper_ask would answer that number now, this is keeper_step with this agent and this wish, in what it answers and in what it does. So a
** commit right after its ask is always that step; a commit of held, asleep or done goes through and changes nothing; and what happened between
** the two, steps of others or touch calls, does not matter where the answer is still the same. If keeper_ask would answer another number, the
** commit is refused with 18 and the cell is as it was. A number that no ask gives, such as one with a word that there is none of, is 18 too.
**
** Refused with 10 where the table is unsound, else with 11 where no such agent is in the cell, else with 18; then the cell is as it was. So a
** refused ask may be handed back as well.
*/
keeper_answer keeper_commit(keeper_cell *cell, uint8_t agent, uint8_t wish, keeper_answer asked);

/*
** keeper_window: the register window of a card, such as a bonder's, that makes its steps itself and has an interrupt line. The card lends one
** record, and each command and each clear changes it where it lies.
**
**     byte  name     who writes it       what it holds
**     0     command  the card            KEEPER_COMMAND_STEP, which is 1: a step. Any other number: nothing, but the line is set anew
**     1     agent    the card            whose step it is
**     2     wish     the card            its wish, as keeper_step has it; 255 for none
**     3     answer   a step              0 to 10, the word (KEEPER_LOOKED to KEEPER_DONE); or KEEPER_WINDOW_REFUSED plus the number of a refusal
**     4     woken    a step              how many sleeping agents the step woke; 0 where it was refused
**     5     flags    a step, a clear     what has happened since the card last cleared it, a bit for each
**     6     mask     the card            the flags that the card wants to hear of
**     7     line     a command, a clear  1 if flags and mask share a bit, else 0
**
**     bit of flags  7 .. 3          2                    1                   0
**                   set by nobody   KEEPER_FLAG_REFUSED  KEEPER_FLAG_REST    KEEPER_FLAG_WOKE
**                                   a step was refused   all agents asleep   a step woke
**                                                        or done after it    someone
**
** Eight zeros are a window in which nothing has happened. Whatever else stands in it is taken as it is: bits 3 to 7 of flags too stay until they are
** cleared, and raise the line where the mask has them.
**
** A call reads the window at its start. Of its bytes keeper_command stores answer, woken, flags and line, and keeper_clear flags and line. So what
** the card writes to command, agent, wish and mask while a call runs is not lost: that call may go by the bytes as they were, the next one
** goes by the new ones. A new mask shows in the line after the next command or clear; an unknown command, such as 0, does that and nothing else.
*/
typedef struct keeper_window {
    uint8_t command;
    uint8_t agent;
    uint8_t wish;
    uint8_t answer;
    uint8_t woken;
    uint8_t flags;
    uint8_t mask;
    uint8_t line;
} keeper_window;

KEEPER_ASSERT(sizeof(keeper_window) == 8 && offsetof(keeper_window, agent) == 1, "keeper_window has 8 bytes");
KEEPER_ASSERT(offsetof(keeper_window, wish) == 2 && offsetof(keeper_window, answer) == 3, "keeper_window");
KEEPER_ASSERT(offsetof(keeper_window, woken) == 4 && offsetof(keeper_window, flags) == 5, "keeper_window");
KEEPER_ASSERT(offsetof(keeper_window, mask) == 6 && offsetof(keeper_window, line) == 7, "keeper_window");

/* The command that makes a step. */
#define KEEPER_COMMAND_STEP 1

/* What is added to the number of a refusal in a window's answer; every answer below it is a word. */
#define KEEPER_WINDOW_REFUSED 128

/* The flags of a window, and so the bits of its mask and of the ones of a clear. */
#define KEEPER_FLAG_WOKE 1    /* a step woke someone */
#define KEEPER_FLAG_REST 2    /* after a step that was not refused all agents were asleep or done: no step changes the cell any more */
#define KEEPER_FLAG_REFUSED 4 /* a step was refused */

/*
** keeper_command: carries out the command in a card's window.
**
** Where `command` is KEEPER_COMMAND_STEP, it is the step of `agent` with `wish`: the cell is left as keeper_step leaves it, and the window tells
** of it:
**
**     answer   the word; or KEEPER_WINDOW_REFUSED plus 10 where the table is unsound, else plus 11 where no such agent is in the cell
**     woken    how many sleeping agents the step woke
**     flags    a step that was made sets KEEPER_FLAG_WOKE if it woke someone, and KEEPER_FLAG_REST if all agents are asleep or done after it; a
**              refused one sets KEEPER_FLAG_REFUSED alone. A flag that is set stays set, whatever later steps do, until it is cleared
**
** A refused step leaves the cell as it was, but not the window. Any other command leaves the cell, and of the window all but the line. After
** every command the line is 1 exactly if flags and mask share a bit, else 0.
**
** For the card it goes so:
**
**     window.command = KEEPER_COMMAND_STEP, window.agent = agent, window.wish = wish;
**     keeper_command(&cell, &window);
**     if window.line is 1                                          the interrupt: something that the mask names has happened
**         seen = window.flags                                      what it was; window.answer and window.woken are those of the latest step
**         keeper_clear(&window, seen);                             and of nothing else, so that no flag is lost that came since
**
** After any commands and clears the cell is the one that the same calls of keeper_step give, and no waking, rest or refusal goes unseen: its
** flag is set until a clear names it. Both are proved (crate window, `SessionRight`). It is a step for every statement on steps: those of
** keeper_ceiling, keeper_check and keeper_commit too.
*/
void keeper_command(keeper_cell *cell, keeper_window *window);

/*
** keeper_clear: ones written to the flags of a card's window clear those bits, and the others stay. Then the line is 1 exactly if flags and mask
** share a bit, else 0. Nothing else is written, and it needs no cell.
*/
void keeper_clear(keeper_window *window, uint8_t ones);

/*
** keeper_list: writes the listing of the cell, in ASCII and without a closing zero byte, to text[0] and on. `room` is how many bytes may
** be written there. A place whose three keys are its name is written as `7[]`, any other with its keys for entering, exiting and opening
** after the name, as `7/8/9/0[]`.
**
** One layout has one listing. Of what a place holds, the agents come first and then the places, each of the two in byte order of their
** texts, as memcmp orders bytes, a shorter text before any that continues it: `70[] | 7[]`, `7[] | 7[enter 7]`. Numbers and the order in
** which places came play no part. So two cells hold the same layout exactly if their listings are equal (proved: crate demands,
** `same_listings`), however their hosts numbered the carriers: two lines are compared by eye, two files of listings by diff, and two
** listings in memory by
**
**     keeper_length(one) == keeper_length(other) && memcmp(text_of_one, text_of_other, keeper_length(one)) == 0
**
** The same layout is the same places with the same names and keys in each other and the same agents with unused actions in them. Locks,
** stages, touch counts, who came first, and whether a place is still on its way are not in it.
**
** Answers the listing's length in keeper_length(answer); bytes past it are as they were. Refused with 10 where the table is unsound, else
** with 12 where the listing is longer than `room`; then the whole text is as it was. The cell is only read.
*/
keeper_answer keeper_list(const keeper_cell *cell, uint8_t *text, size_t room);

/*
** keeper_check: whether the table is sound. A cell that keeper_bare or an accepted keeper_load or keeper_read wrote, and that only
** keeper_step, keeper_commit, keeper_command and keeper_touch have changed since, always is.
**
** Answers 0 if it is sound; refused with 10 if it is not. The cell is only read.
*/
keeper_answer keeper_check(const keeper_cell *cell);

/*
** keeper_idle: whether all agents are asleep or done, so that no step changes the cell any more. Where there are no agents, they are.
**
** Answers it in keeper_all_rest(answer). Refused with 10 where the table is unsound. The cell is only read.
*/
keeper_answer keeper_idle(const keeper_cell *cell);

/*
** keeper_ceiling: how many step calls can still change the cell, at most. No order churns forever: of all the calls of keeper_step from here on,
** with any agents and wishes in any order, and of keeper_commit and keeper_command, no more than this number change the cell. Every other one is
** refused or answers held, asleep or done. Touch calls may come between and count for nothing here.
**
** For a dispatcher it says when waiting may stop:
**
**     uint64_t most = keeper_most_changes(keeper_ceiling(&cell));  right after the load
**     for each call that answers none of held, asleep, done        and is not refused
**         changes++                                                it changed the cell: changes is never more than most
**     if changes is most                                           all agents are asleep or done, and stay so
**
** and a dispatcher that gives every agent a turn, round after round, has all of them asleep or done after `most` rounds at the latest, since in each
** round before that some step changes the cell. Mostly rest comes far sooner, and keeper_idle tells when.
**
** With G agents in the cell, done ones too, and M the sum of 2 for each unused action and 1 for each agent on its way (stages 4 to 6), the number is
** 5 * G * (M + 1) + M. So of a cell that was just loaded or read, with A actions in all, it is 5 * G * (2 * A + 1) + 2 * A: 54 of the two agents with
** one action each in `7[enter 9] | 9[exit 7]`, 657728 of the fullest cell, and 0 exactly where there are no agents. A step or commit that answers
** left or came lowers it by 5 * G + 1, one that answers opened or put by twice that, and of the other calls only keeper_bare, keeper_load and
** keeper_read change it. It is proved (crate ceiling); it is a ceiling and no forecast.
**
** Answers the number in keeper_most_changes(answer): it stands in bits 8 and up. Refused with 10 where the table is unsound. The cell is only read.
*/
keeper_answer keeper_ceiling(const keeper_cell *cell);

/*
** keeper_touch: adds `number` to the touch count of a place, such as the touch-downs of a capillary since the last call. The count stays
** with the place wherever it goes; a place that a step puts starts with 0, whatever its number counted before. The sum over all places in use
** is what the file gave and the calls have added since, whatever steps were made.
**
** Answers the place's new count in keeper_count(answer). Refused with 10 where the table is unsound, else with 3 for a place above 63, else
** with 5 for one that is not in use, else with 15 where the sum over all places in use would pass KEEPER_TOUCHES_MOST; then the cell is as
** it was. No step, listing or idle call answers otherwise for it.
*/
keeper_answer keeper_touch(keeper_cell *cell, uint8_t place, uint32_t number);

/*
** keeper_touches: the touch count of a place.
**
** Answers it in keeper_count(answer). Refused with 10, 3 or 5 as keeper_touch is. The cell is only read.
*/
keeper_answer keeper_touches(const keeper_cell *cell, uint8_t place);

/*
** keeper_nearest: which place of this name a place is in, such as in which bonder a holder is. It is the nearest of the places around it,
** at any depth, that have the name; the place itself does not count. A place on its way is read at its destination, as the listing has it.
** `name` is compared with names and never with keys. The floor's name is 0, so 0 finds the floor from every place but the floor, which
** nothing is around.
**
**     keeper_answer answer = keeper_nearest(&cell, holder, name_of_bonders);
**     if keeper_refusal(answer) is not 0                           there is no such place, or the table is unsound
**     else if keeper_found(answer) is KEEPER_NOWHERE               the holder is in no bonder
**     else                                                         keeper_found(answer) is the number of the bonder that it is in
**
** Answers the place in keeper_found(answer): KEEPER_NOWHERE exactly if no place around the given one has the name, which is an answer and
** no refusal. The number as a whole is
**
**     bits 0 to 7      0, or the refusal
**     bits 8 to 15     the place, or KEEPER_NOWHERE
**
** and 0 above. Refused with 10 where the table is unsound, else with 3 for a place above 63, else with 5 for one that is not in use. The
** cell is only read.
*/
keeper_answer keeper_nearest(const keeper_cell *cell, uint8_t place, uint16_t name);

/*
** keeper_common: the innermost place that holds or is both of two places, such as the bonder or the magazine that two holders are both in.
** A place holds what stands in it, at any depth, and a place on its way is read at its destination. So where one of the two stands in the
** other it is that other, and of a place and itself it is that place. Which of the two is named first does not matter.
**
** Answers the place in keeper_found(answer), in the bits in which keeper_nearest has it. There always is one, the floor if nothing deeper,
** so it is never KEEPER_NOWHERE. Refused with 10 where the table is unsound, else with 3 where one of the two is above 63, else with 5
** where one of them is not in use. The cell is only read.
*/
keeper_answer keeper_common(const keeper_cell *cell, uint8_t place, uint8_t other);

/*
** keeper_trail: writes, to trail[0] and trail[1], the move that a step of this agent makes, by the number `asked` that keeper_ask answered for it: the agent
** and the place that it enters or opens, or 255 (KEEPER_NONE_CHOSEN) for an exit and a release. A step makes a move where its word is left, opened or put;
** for any other word, and for an ask that was refused, there is nothing to write. `room` is how many bytes may be written at `trail`.
**
** So a host keeps the trail of a run, from an accepted keeper_load on:
**
**     keeper_answer asked = keeper_ask(&cell, agent, wish);        right before keeper_step or keeper_command, for a keeper_commit at any time before
**     keeper_answer answer = keeper_commit(&cell, agent, wish, asked);
**     if keeper_refusal(answer) is 0                               a commit that is refused makes no move
**         length += keeper_length(keeper_trail(agent, asked, trail + length, sizeof trail - length));
**
** where `trail` has KEEPER_TRAIL_LONGEST bytes. Touch calls and whatever reads the cell may come between and write nothing. The trail so kept, with the
** file and the listing of the cell, is answered by keeper_audit with a yes, after every call (proved: crate claims, `asked_run` and `run_upheld`).
**
** Answers how many bytes it wrote in keeper_length(answer): 2, or 0 where there is no move. Bytes past them are as they were. Refused with 12 where
** there is a move and `room` is less than 2; then nothing is written. It takes no cell, so it is never 10 or 11: what it writes is as true as `asked`.
*/
keeper_answer keeper_trail(uint8_t agent, keeper_answer asked, uint8_t *trail, size_t room);

/*
** keeper_audit: whether a trail leads from a cell file to a listing, such as the trail that the dispatcher's maker delivers with each shift. It stands in
** a library of its own, libauditor.a (`tools/build auditor`), which is linked beside libkeeper.a where this call is made. The file is
** that of file[0] to file[file_length - 1], as for keeper_load; the trail has two bytes for each move, from trail[0] on, as keeper_trail writes them; the
** listing is compared byte for byte with that of the layout at the end, as keeper_list writes it: no line end, no closing zero byte.
**
** A yes means that each move is one that the calculus permits for its agent's next action in the layout that the moves before it have reached, and that the
** layout after the last one has this listing; so it is that of the file after these very moves, and the trail of every run of the keeper is a yes (both
** are proved: crates trail and claims). It does not mean that the keeper made them, nor that it would have in this order: locks, wishes, ways, sleep and
** touches play no part, a trail may stop anywhere, and whether the plant's carriers are where the listing says, no trail shows.
**
** Answers 0 for a yes. Else, where the file is accepted, keeper_reason(answer) is why not (KEEPER_AUDIT_..), and keeper_moves(answer) is how many moves
** stand before what is wrong: for 1 and 2, how many were made before the one that is denied, which is the move in trail[2 * moves] and the byte after it;
** for 3, how many whole moves the trail has, so that trail[2 * moves] is the odd byte; for 4, all of them. The number as a whole is
**
**     bits 0 to 7      0, or the refusal; then the offset from bit 8 on, as keeper_load answers it
**     bits 8 to 15     the reason, 0 for a yes
**     from bit 16 on   the moves
**
** A bad file is refused as keeper_load refuses it, whatever the trail and the listing; then an odd trail is a no, whatever its moves; then the first move
** that is denied decides, and the listing last. Nothing is written; file, trail and listing are only read.
*/
keeper_answer keeper_audit(const uint8_t *file, size_t file_length, const uint8_t *trail, size_t trail_length, const uint8_t *listing,
                           size_t listing_length);

/* The number with which the call was refused, or 0. */
static inline unsigned keeper_refusal(keeper_answer answer) { return (unsigned)(answer & 255); }

/* The offset at which keeper_load or keeper_audit refused the file, or keeper_read the text. */
static inline size_t keeper_offset(keeper_answer answer) { return (size_t)(answer >> 8); }

/* The word that keeper_step or keeper_commit answers, or that keeper_ask tells. */
static inline unsigned keeper_word(keeper_answer answer) { return (unsigned)(answer >> 8 & 255); }

/* How many agents the step woke, or, where keeper_ask tells it, would wake. */
static inline unsigned keeper_woken(keeper_answer answer) { return (unsigned)(answer >> 16 & 255); }

/* The chosen place that keeper_ask tells, or KEEPER_NONE_CHOSEN. */
static inline unsigned keeper_chosen(keeper_answer answer) { return (unsigned)(answer >> 24 & 255); }

/* The number with which the latest step of a window was refused, or 0; where it is 0, the window's answer is a word. */
static inline unsigned keeper_window_refusal(const keeper_window *window)
{
    return window->answer < KEEPER_WINDOW_REFUSED ? 0u : (unsigned)(window->answer - KEEPER_WINDOW_REFUSED);
}

/* The length of the listing that keeper_list wrote, or how many bytes keeper_trail wrote. */
static inline size_t keeper_length(keeper_answer answer) { return (size_t)(answer >> 8); }

/* 1 if keeper_idle found all agents asleep or done, else 0. */
static inline int keeper_all_rest(keeper_answer answer) { return (int)(answer >> 8 & 1); }

/* The touch count that keeper_touch or keeper_touches answers. */
static inline uint64_t keeper_count(keeper_answer answer) { return answer >> 8; }

/* The place that keeper_nearest or keeper_common found; of keeper_nearest also KEEPER_NOWHERE. */
static inline unsigned keeper_found(keeper_answer answer) { return (unsigned)(answer >> 8 & 255); }

/* How many step calls can still change the cell, at most, as keeper_ceiling answers it. */
static inline uint64_t keeper_most_changes(keeper_answer answer) { return answer >> 8; }

/* Why keeper_audit says no, or KEEPER_AUDIT_YES; it means something where the file is not refused. */
static inline unsigned keeper_reason(keeper_answer answer) { return (unsigned)(answer >> 8 & 255); }

/* How many moves stand before what keeper_audit finds wrong. */
static inline uint64_t keeper_moves(keeper_answer answer) { return answer >> 16; }

/* The word's name, as `walk` prints it; "unknown" for a number that is no word. */
static inline const char *keeper_word_name(unsigned word)
{
    switch (word) {
    case KEEPER_LOOKED: return "looked";
    case KEEPER_TOOK: return "took";
    case KEEPER_HELD: return "held";
    case KEEPER_BACK: return "back";
    case KEEPER_SLEPT: return "slept";
    case KEEPER_LEFT: return "left";
    case KEEPER_CAME: return "came";
    case KEEPER_OPENED: return "opened";
    case KEEPER_PUT: return "put";
    case KEEPER_ASLEEP: return "asleep";
    case KEEPER_DONE: return "done";
    default: return "unknown";
    }
}

/* What keeper_audit's reason means, as `audit` prints it; "unknown" for a number that is none. */
static inline const char *keeper_reason_text(unsigned reason)
{
    switch (reason) {
    case KEEPER_AUDIT_YES: return "yes";
    case KEEPER_AUDIT_NOT_PERMITTED: return "not permitted";
    case KEEPER_AUDIT_NO_ACTION: return "no action left";
    case KEEPER_AUDIT_ODD_BYTE: return "odd last byte";
    case KEEPER_AUDIT_OTHER_LAYOUT: return "other layout";
    default: return "unknown";
    }
}

/* What a refusal's number means; "unknown" for a number that is none. */
static inline const char *keeper_refusal_text(unsigned refusal)
{
    switch (refusal) {
    case KEEPER_CUT_SHORT: return "cut short: a body incomplete, or no end record";
    case KEEPER_UNKNOWN_KIND: return "unknown kind, not 1 to 6";
    case KEEPER_TOO_LARGE: return "place number above 63, or 0 in a place record";
    case KEEPER_GIVEN_TWICE: return "number or touches given twice";
    case KEEPER_NOT_YET_GIVEN: return "not yet given, or not in use";
    case KEEPER_NAME_ZERO: return "name 0 in a place or action";
    case KEEPER_ACTION_KIND: return "action kind not 1 to 4";
    case KEEPER_SEVENTEENTH_ACTION: return "seventeenth action";
    case KEEPER_AFTER_THE_END: return "bytes after the end record";
    case KEEPER_UNSOUND: return "unsound table";
    case KEEPER_NO_SUCH_AGENT: return "no such agent";
    case KEEPER_LISTING_TOO_LONG: return "listing or move longer than the buffer";
    case KEEPER_PARENT_TOO_LARGE: return "parent or home above 63";
    case KEEPER_AGENT_TOO_LARGE: return "agent number above 63";
    case KEEPER_TOO_MANY_TOUCHES: return "more than 1,000,000,000,000 touches in all";
    case KEEPER_OUTSIDE_LANGUAGE: return "not a text of the listing's language";
    case KEEPER_TOO_MANY: return "more than 63 places, 64 agents or sixteen actions of one agent";
    case KEEPER_ANSWER_DIFFERS: return "the step would answer otherwise";
    default: return "unknown";
    }
}

#undef KEEPER_ASSERT

#ifdef __cplusplus
}
#endif

#endif
