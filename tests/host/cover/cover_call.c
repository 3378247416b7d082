/* The cover test alone: `yaslaurel_cover_place` of the crate `covering`, or one of cover_standin.c. It gives the place of the first
 * mixture that covers the tag, 255 if none does. */
#include "count.h"

#include <stddef.h>
#include <stdlib.h>

enum { NO_PLACE = 255 };

size_t yaslaurel_cover_place(const uint64_t *mixtures, size_t count, uint64_t tag);

static uint64_t rule[MIXTURES];
static uint64_t tag;

void prepare(int place)
{
    for (int i = 0; i < MIXTURES; i++)
        rule[i] = mixture_at(i);
    tag = tag_in(place);
    if (yaslaurel_cover_place(rule, MIXTURES, tag) != (size_t)place ||
        yaslaurel_cover_place(rule, (size_t)place, tag) != NO_PLACE)
        abort();
}

void call(void)
{
    yaslaurel_cover_place(rule, MIXTURES, tag);
}
