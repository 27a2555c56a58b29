/*
** A card that drives a cell through its register window, for hosts to copy from:
**
**     window TEXT        such as: window '7[enter 9] | 9[exit 7]'
**
** The cell is what the text says. The card gives its agents a turn each, round after round: it writes command, agent and wish and has the command
** carried out. Then it looks at the line and at nothing else. Only where the line is raised does it read what has happened, and clears it; and it
** stops where the flags say that all agents are asleep or done, or that a step was refused. It prints a line for each step and each interrupt, and
** the layout at the end.
*/
#include "../keeper.h"

#include <stdio.h>
#include <string.h>

/* What the card wants to hear of. */
#define HEARD (KEEPER_FLAG_WOKE | KEEPER_FLAG_REST | KEEPER_FLAG_REFUSED)

/* The keeper's side of a command; a host prints what the card does not read. */
static void carry_out(keeper_cell *cell, keeper_window *window)
{
    keeper_command(cell, window);
    if (keeper_window_refusal(window) != 0)
        printf("agent %u refused %u\n", window->agent, keeper_window_refusal(window));
    else
        printf("agent %u %s\n", window->agent, keeper_word_name(window->answer));
}

/* The card's side of an interrupt: what has happened is read and cleared. Answers whether the card goes on. */
static int interrupted(keeper_window *window)
{
    uint8_t seen = window->flags;

    printf("line raised:");
    if ((seen & KEEPER_FLAG_WOKE) != 0)
        printf(" %u woken", window->woken);
    if ((seen & KEEPER_FLAG_REST) != 0)
        printf(" all rest");
    if ((seen & KEEPER_FLAG_REFUSED) != 0)
        printf(" %s", keeper_refusal_text(keeper_window_refusal(window)));
    printf("\n");
    keeper_clear(window, seen);
    return (seen & (KEEPER_FLAG_REST | KEEPER_FLAG_REFUSED)) == 0;
}

/* Turns for so many agents, numbered from 0, until an interrupt says that it is over. No order churns forever, so it comes to an end. */
static void drive(keeper_cell *cell, unsigned agents)
{
    keeper_window window = {0};
    int goes_on = 1;

    window.mask = HEARD;
    for (unsigned turn = 0; goes_on; turn++) {
        window.command = KEEPER_COMMAND_STEP;
        window.agent = (uint8_t)(turn % agents);
        window.wish = 255;
        carry_out(cell, &window);
        if (window.line == 1)
            goes_on = interrupted(&window);
    }
}

int main(int count, char **words)
{
    static keeper_cell cell;
    static uint8_t text[KEEPER_LISTING_LONGEST];
    keeper_answer answer;
    unsigned agents = 0;

    if (count != 2) {
        fprintf(stderr, "usage: %s TEXT\n", words[0]);
        return 2;
    }
    if (!keeper_fits()) {
        fprintf(stderr, "the library is not one that this host was made for\n");
        return 1;
    }
    keeper_bare(&cell);
    answer = keeper_read(&cell, (const uint8_t *)words[1], strlen(words[1]));
    if (keeper_refusal(answer) != 0) {
        printf("%s\n%*s^ %s\n", words[1], (int)keeper_offset(answer), "", keeper_refusal_text(keeper_refusal(answer)));
        return 1;
    }
    while (agents < KEEPER_AGENTS && (cell.given >> agents & 1) != 0)
        agents++;
    drive(&cell, agents == 0 ? 1 : agents);
    answer = keeper_list(&cell, text, sizeof text);
    printf("end %.*s\n", (int)keeper_length(answer), (const char *)text);
    return 0;
}
