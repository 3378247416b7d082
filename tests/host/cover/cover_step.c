/* A write, by `yaslaurel_step`, into a file whose permit rule has the eight mixtures, by a process that holds one atom. Nothing
 * else differs: every run rule is unrestricted. */
#include "../inputs.h"
#include "count.h"
#include "yaslaurel.h"

#include <stddef.h>
#include <stdlib.h>

/* The containers: the file that is written, one that has the atom, and the process. */
enum { WRITTEN, SOURCE, PROCESS, CONTAINERS };

static uint8_t image[256];
static uint64_t session[YASLAUREL_SESSION_LENGTH];
static uint8_t record[YASLAUREL_RECORD_LENGTH];
static uint64_t receiver, tag;
static uint32_t position;

/* The image; its length. */
static size_t make_image(int place)
{
    static const size_t counts[YASLAUREL_SECTIONS] = {CONTAINERS, 0, 1, MIXTURES};
    size_t length = put_header(image, counts, NULL);
    uint8_t *at = section_at(image, CONTAINER_SECTION);

    at = put_container(at, YASLAUREL_FILE, YASLAUREL_NO_ATOM, 0, YASLAUREL_UNRESTRICTED);
    at = put_container(at, YASLAUREL_FILE, (uint64_t)(ATOMS * place), YASLAUREL_UNRESTRICTED, YASLAUREL_UNRESTRICTED);
    at = put_rule(put_other(at, YASLAUREL_PROCESS), 0, MIXTURES);
    for (int i = 0; i < MIXTURES; i++)
        at = put_mixture(at, mixture_at(i));
    return length;
}

static uint32_t step(void)
{
    return yaslaurel_step(session, YASLAUREL_SESSION_LENGTH, record, YASLAUREL_RECORD_LENGTH, &receiver, &tag, &position);
}

void prepare(int place)
{
    if (yaslaurel_session_start(image, make_image(place), session, YASLAUREL_SESSION_LENGTH) != YASLAUREL_ACCEPTED)
        abort();
    yaslaurel_record(YASLAUREL_READ, PROCESS, SOURCE, YASLAUREL_NO_USER, record);
    if (step() != YASLAUREL_QUIET)
        abort();
    yaslaurel_record(YASLAUREL_WRITE, PROCESS, WRITTEN, YASLAUREL_NO_USER, record);
    if (step() != YASLAUREL_QUIET || receiver != WRITTEN || tag != tag_in(place) || position != (uint32_t)place)
        abort();
}

void call(void)
{
    step();
}
