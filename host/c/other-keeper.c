/*
** A library that is not the one of keeper.h: another major number and larger cells. Its other calls end the program, so that a test sees
** that a host makes none of them.
*/
#include "../keeper.h"

#include <stdlib.h>

uint64_t keeper_version(void) { return (KEEPER_MAJOR + 1) * 65536; }
uint64_t keeper_cell_bytes(void) { return KEEPER_CELL_BYTES + 64; }

keeper_answer keeper_bare(keeper_cell *cell) { (void)cell, abort(); }
keeper_answer keeper_load(keeper_cell *cell, const uint8_t *file, size_t len) { (void)cell, (void)file, (void)len, abort(); }
keeper_answer keeper_read(keeper_cell *cell, const uint8_t *text, size_t length) { (void)cell, (void)text, (void)length, abort(); }
keeper_answer keeper_step(keeper_cell *cell, uint8_t agent, uint8_t wish) { (void)cell, (void)agent, (void)wish, abort(); }
keeper_answer keeper_ask(const keeper_cell *cell, uint8_t agent, uint8_t wish) { (void)cell, (void)agent, (void)wish, abort(); }
keeper_answer keeper_commit(keeper_cell *cell, uint8_t agent, uint8_t wish, keeper_answer asked)
{
    (void)cell, (void)agent, (void)wish, (void)asked, abort();
}
void keeper_command(keeper_cell *cell, keeper_window *window) { (void)cell, (void)window, abort(); }
void keeper_clear(keeper_window *window, uint8_t ones) { (void)window, (void)ones, abort(); }
keeper_answer keeper_list(const keeper_cell *cell, uint8_t *text, size_t room) { (void)cell, (void)text, (void)room, abort(); }
keeper_answer keeper_check(const keeper_cell *cell) { (void)cell, abort(); }
keeper_answer keeper_idle(const keeper_cell *cell) { (void)cell, abort(); }
keeper_answer keeper_touch(keeper_cell *cell, uint8_t place, uint32_t number) { (void)cell, (void)place, (void)number, abort(); }
keeper_answer keeper_touches(const keeper_cell *cell, uint8_t place) { (void)cell, (void)place, abort(); }
keeper_answer keeper_nearest(const keeper_cell *cell, uint8_t place, uint16_t name) { (void)cell, (void)place, (void)name, abort(); }
keeper_answer keeper_common(const keeper_cell *cell, uint8_t place, uint8_t other) { (void)cell, (void)place, (void)other, abort(); }
keeper_answer keeper_ceiling(const keeper_cell *cell) { (void)cell, abort(); }
keeper_answer keeper_trail(uint8_t agent, keeper_answer asked, uint8_t *trail, size_t room) { (void)agent, (void)asked, (void)trail, (void)room, abort(); }
