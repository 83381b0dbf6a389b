/* The sizes and offsets of the structs, as numbers: a struct of the header that moves stops the build. */
#include "hermes_machine.h"

#define AT(type, field, offset) _Static_assert(offsetof(type, field) == (offset), #type "." #field)
#define SIZE(type, size) _Static_assert(sizeof(type) == (size), #type)

SIZE(hermes_machine, 16);
AT(hermes_machine, full, 0);
AT(hermes_machine, at, 8);

SIZE(hermes_profile, 32);
AT(hermes_profile, size, 0);
AT(hermes_profile, number, 4);
AT(hermes_profile, lane, 8);
AT(hermes_profile, capacity, 12);
AT(hermes_profile, bridge, 16);
AT(hermes_profile, zero, 20);
AT(hermes_profile, used, 24);

SIZE(hermes_view, 136);
AT(hermes_view, size, 0);
AT(hermes_view, spent, 4);
AT(hermes_view, bridge, 8);
AT(hermes_view, supervised, 12);
AT(hermes_view, state, 16);
AT(hermes_view, held, 24);
AT(hermes_view, drive, 32);
AT(hermes_view, signal, 40);
AT(hermes_view, close, 56);
AT(hermes_view, kept, 72);
AT(hermes_view, acts, 80);
AT(hermes_view, unsent, 88);
AT(hermes_view, ids_made, 120);
AT(hermes_view, steps, 128);

SIZE(hermes_input, 48);
AT(hermes_input, size, 0);
AT(hermes_input, kind, 4);
AT(hermes_input, side, 8);
AT(hermes_input, what, 12);
AT(hermes_input, slot, 16);
AT(hermes_input, zero, 20);
AT(hermes_input, id, 24);
AT(hermes_input, query, 40);

SIZE(hermes_act, 56);
AT(hermes_act, size, 0);
AT(hermes_act, kind, 4);
AT(hermes_act, side, 8);
AT(hermes_act, what, 12);
AT(hermes_act, query, 16);
AT(hermes_act, id, 24);
AT(hermes_act, other, 40);

SIZE(hermes_board, 80);
AT(hermes_board, size, 0);
AT(hermes_board, quality, 4);
AT(hermes_board, flip, 8);
AT(hermes_board, has, 12);
AT(hermes_board, id, 64);
