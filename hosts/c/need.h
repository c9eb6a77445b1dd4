/* What both hosts lend. */
#include "../../include/troscunel.h"

static int in_range(size_t figure) { return 1 <= figure && figure <= TROSCUNEL_LARGEST_ROOM; }

/* As many words as a room needs. Figures that are out of range are refused before the scratch is looked at: they need none. */
static size_t need_of(size_t pairs, size_t compounds, size_t goals) {
    return in_range(pairs) && in_range(compounds) && in_range(goals) ? TROSCUNEL_NEED(pairs, compounds, goals) : 0;
}
