/* Shared by the tests in C: images, numbers as bytes, and random numbers. */
#ifndef INPUTS_H
#define INPUTS_H

#include <stddef.h>
#include <stdint.h>

#include "yaslaurel.h"

/* Writes a number of so many bytes; gives the place behind it. */
static inline uint8_t *put(uint8_t *at, uint64_t value, size_t bytes)
{
    for (size_t i = 0; i < bytes; i++) {
        at[i] = (uint8_t)(value >> 8 * i);
    }
    return at + bytes;
}

/* A number of two bytes. */
static inline size_t get16(const uint8_t *at) { return at[0] + 256u * at[1]; }

/* The sections of an image, in their order. */
enum section { CONTAINER_SECTION, USER_SECTION, RULE_SECTION, MIXTURE_SECTION };

/* The bytes of a record of each section. */
static const size_t record_sizes[YASLAUREL_SECTIONS] = {YASLAUREL_CONTAINER_LENGTH, YASLAUREL_USER_LENGTH,
                                                        YASLAUREL_RULE_LENGTH, YASLAUREL_MIXTURE_LENGTH};

/* Writes the header of an image of so many records in each section, with so many bytes before each of them (a null is
   none). The length of the whole image, whose records are then put where section_at says, one behind the other. */
static inline size_t put_header(uint8_t *image, const size_t *counts, const size_t *gaps)
{
    size_t at = YASLAUREL_HEADER_LENGTH;

    put(image, YASLAUREL_LEADING, 2);
    for (size_t section = 0; section < YASLAUREL_SECTIONS; section++) {
        at += gaps == NULL ? 0 : gaps[section];
        put(image + YASLAUREL_OFFSET_AT(section), at, 2);
        put(image + YASLAUREL_LENGTH_AT(section), record_sizes[section] * counts[section], 2);
        at += record_sizes[section] * counts[section];
    }
    return at;
}

/* Where the records of a section begin. */
static inline uint8_t *section_at(uint8_t *image, enum section section)
{
    return image + get16(image + YASLAUREL_OFFSET_AT((size_t)section));
}

/* Each writes a record of an image, and gives the place behind it. */
static inline uint8_t *put_container(uint8_t *at, uint64_t kind, uint64_t atom, uint64_t permit, uint64_t run)
{
    return put(put(put(put(at, kind, 1), atom, 1), permit, 2), run, 2);
}

/* A container that is no file has no atom and is unrestricted. */
static inline uint8_t *put_other(uint8_t *at, uint64_t kind)
{
    return put_container(at, kind, YASLAUREL_NO_ATOM, YASLAUREL_UNRESTRICTED, YASLAUREL_UNRESTRICTED);
}

static inline uint8_t *put_user(uint8_t *at, uint64_t rule) { return put(at, rule, YASLAUREL_USER_LENGTH); }

static inline uint8_t *put_owned_rule(uint8_t *at, uint64_t first, uint64_t count, uint64_t owner)
{
    return put(put(put(at, first, 2), count, 2), owner, 2);
}

static inline uint8_t *put_rule(uint8_t *at, uint64_t first, uint64_t count)
{
    return put_owned_rule(at, first, count, YASLAUREL_NO_OWNER);
}

static inline uint8_t *put_mixture(uint8_t *at, uint64_t mixture) { return put(at, mixture, YASLAUREL_MIXTURE_LENGTH); }

/* The next random number from a state. */
static inline uint64_t next(uint64_t *state)
{
    uint64_t z = (*state += 0x9e3779b97f4a7c15u);
    z = (z ^ (z >> 30)) * 0xbf58476d1ce4e5b9u;
    z = (z ^ (z >> 27)) * 0x94d049bb133111ebu;
    return z ^ (z >> 31);
}

#endif
