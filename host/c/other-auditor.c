/*
** The auditor beside a library that is not the one of keeper.h: its call ends the program, so that a test sees that a host does not make it.
*/
#include "../keeper.h"

#include <stdlib.h>

keeper_answer keeper_audit(const uint8_t *file, size_t n, const uint8_t *trail, size_t m, const uint8_t *listing, size_t k)
{
    (void)file, (void)n, (void)trail, (void)m, (void)listing, (void)k, abort();
}
