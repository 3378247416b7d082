/* What count.c measures. */
#ifndef COUNT_H
#define COUNT_H

#include <stdint.h>

enum {
    MIXTURES = 8,
    /* the data atoms of each mixture */
    ATOMS = 4
};

/* Gets ready for a tag that only the mixture at this place covers. */
void prepare(int place);

/* The call whose instructions are counted. */
void call(void);

/* The mixture at a place, no two of which share an atom, and a tag of one atom of it. */
static inline uint64_t mixture_at(int place)
{
    return (((uint64_t)1 << ATOMS) - 1) << (ATOMS * place);
}

static inline uint64_t tag_in(int place)
{
    return (uint64_t)1 << (ATOMS * place);
}

#endif
