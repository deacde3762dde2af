/* The version of the library, compiled into it, so that a host can compare it with its header's; and the
 * layout that is promised for it: where one of these no longer holds, the major version rises. */
#include "settlement_day.h"

#define LAYOUT(condition) _Static_assert(condition, "a layout has changed: raise DAY_VERSION_MAJOR")

LAYOUT(sizeof(struct day_state) == 40 && offsetof(struct day_state, phase) == 4);
LAYOUT(offsetof(struct day_state, entries) == 8 && offsetof(struct day_state, turn) == 16);
LAYOUT(offsetof(struct day_state, marks) == 20 && sizeof(((struct day_state *)0)->marks) == 16);
LAYOUT(sizeof(struct day_turned) == 64 && offsetof(struct day_turned, count) == 8);
LAYOUT(offsetof(struct day_turned, cancelled) == 16 && offsetof(struct day_turned, state) == 24);
LAYOUT(sizeof(struct day_ran) == 72 && offsetof(struct day_ran, answered) == 8);
LAYOUT(offsetof(struct day_ran, used) == 16 && offsetof(struct day_ran, written) == 24);
LAYOUT(offsetof(struct day_ran, state) == 32);
LAYOUT(sizeof(struct day_entry) == 12 && offsetof(struct day_entry, from) == 1);
LAYOUT(offsetof(struct day_entry, to) == 2 && offsetof(struct day_entry, lots) == 4);
LAYOUT(offsetof(struct day_entry, day) == 8);
LAYOUT(sizeof(struct day_seen) == 40 && offsetof(struct day_seen, some) == 4);
LAYOUT(offsetof(struct day_seen, net) == 8 && offsetof(struct day_seen, charge) == 16);
LAYOUT(offsetof(struct day_seen, entry) == 24);
LAYOUT(sizeof(struct day_caller) == 68 && offsetof(struct day_caller, owners) == 4);

uint32_t day_version(void)
{
    return DAY_VERSION;
}
