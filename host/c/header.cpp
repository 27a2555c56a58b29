// keeper.h from C++: it compiles without a warning, twice included, and its calls link.
#include "../keeper.h"
#include "../keeper.h"

#include <cstdio>
#include <cstring>

int main()
{
    static keeper_cell cell;
    const uint8_t file[] = {1, 1, 0, 7, 0, 4};
    uint8_t text[KEEPER_LISTING_LONGEST];

    if (!keeper_fits() || keeper_version() != KEEPER_VERSION)
        return 1;
    if (keeper_bare(&cell) != 0 || keeper_load(&cell, file, 0) != 0 || keeper_load(&cell, file, sizeof file) != 0 || keeper_check(&cell) != 0)
        return 1;
    const keeper_answer answer = keeper_list(&cell, text, sizeof text);
    if (keeper_refusal(answer) != 0 || keeper_length(answer) != 3 || std::memcmp(text, "7[]", 3) != 0)
        return 1;
    if (keeper_read(&cell, reinterpret_cast<const uint8_t *>("7[0]"), 4) != (2 << 8 | KEEPER_OUTSIDE_LANGUAGE))
        return 1;
    if (keeper_read(&cell, text, 3) != 0)
        return 1;
    const keeper_name &name = cell.places[1].name;
    if (name.name != 7 || name.entering != 7 || name.exiting != 7 || name.opening != 7)
        return 1;
    if (!keeper_all_rest(keeper_idle(&cell)) || keeper_refusal(keeper_step(&cell, 0, 0)) != KEEPER_NO_SUCH_AGENT)
        return 1;
    if (keeper_count(keeper_touch(&cell, 1, 5)) != 5 || keeper_count(keeper_touches(&cell, 1)) != 5)
        return 1;
    if (keeper_read(&cell, reinterpret_cast<const uint8_t *>("7[enter 9]"), 10) != 0)
        return 1;
    const keeper_answer asked = keeper_ask(&cell, 0, 255);
    if (keeper_word(asked) != KEEPER_LOOKED || keeper_chosen(asked) != KEEPER_NONE_CHOSEN || keeper_commit(&cell, 0, 255, asked) != 0)
        return 1;
    if (keeper_refusal(keeper_commit(&cell, 0, 255, asked)) != KEEPER_ANSWER_DIFFERS)
        return 1;
    if (keeper_read(&cell, reinterpret_cast<const uint8_t *>("9[7[]]"), 6) != 0 || keeper_found(keeper_nearest(&cell, 2, 9)) != 1)
        return 1;
    if (keeper_found(keeper_nearest(&cell, 2, 7)) != KEEPER_NOWHERE || keeper_found(keeper_common(&cell, 1, 2)) != 1)
        return 1;
    keeper_window window = {KEEPER_COMMAND_STEP, 3, 255, 0, 0, 0, KEEPER_FLAG_REFUSED, 0};
    keeper_command(&cell, &window);
    if (keeper_window_refusal(&window) != KEEPER_NO_SUCH_AGENT || window.flags != KEEPER_FLAG_REFUSED || window.line != 1)
        return 1;
    keeper_clear(&window, KEEPER_FLAG_REFUSED);
    if (window.flags != 0 || window.line != 0)
        return 1;
    if (keeper_read(&cell, reinterpret_cast<const uint8_t *>("release 9"), 9) != 0 || keeper_most_changes(keeper_ceiling(&cell)) != 17)
        return 1;
    if (keeper_step(&cell, 0, 255) != 0)
        return 1;
    if (keeper_word(keeper_step(&cell, 0, 255)) != KEEPER_TOOK || keeper_word(keeper_step(&cell, 0, 255)) != KEEPER_PUT || cell.used != 3)
        return 1;
    const uint8_t moves[] = {0, 255};
    const uint8_t release[] = {2, 0, 0, 3, 0, 4, 9, 0, 4};
    if (keeper_trail(0, KEEPER_PUT << 8 | 0xFF000000, text, 2) != 2 << 8 || std::memcmp(text, moves, 2) != 0)
        return 1;
    if (keeper_audit(release, sizeof release, moves, 2, reinterpret_cast<const uint8_t *>("9[]"), 3) != KEEPER_AUDIT_YES)
        return 1;
    const keeper_answer audited = keeper_audit(release, sizeof release, moves, 2, moves, 2);
    if (keeper_reason(audited) != KEEPER_AUDIT_OTHER_LAYOUT || keeper_moves(audited) != 1)
        return 1;
    std::puts("1 passed, 0 failed");
    return 0;
}
