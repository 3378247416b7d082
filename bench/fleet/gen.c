/* gen POLICY FOLDER HOSTS RECORDS: a policy of ten members, and traces of settlement hosts, one job in a hundred of which reads another member's positions. */
#include <stdio.h>
#include <stdlib.h>
#include <yaslaurel.h>

enum { MEMBERS = 10, STATEMENTS = 10, PRICES = 20, PROGRAMS = 22, SCHEDULER = 26, CONTAINERS = 27, USERS = 2, JOBS = 32, JOB_AT = 100, PIPE_AT = 140, STRANGER = 200 };

static uint8_t image[YASLAUREL_IMAGE_LIMIT];
static size_t length;
static uint64_t state;

static uint32_t below(uint32_t n)
{
    state ^= state << 13;
    state ^= state >> 7;
    state ^= state << 17;
    return (uint32_t)((state >> 11) % n);
}

static void put16(uint32_t value)
{
    image[length++] = value & 255;
    image[length++] = value >> 8 & 255;
}

static void container(uint8_t kind, uint8_t atom, uint32_t permit)
{
    image[length++] = kind;
    image[length++] = atom;
    put16(permit);
    put16(YASLAUREL_UNRESTRICTED);
}

static void policy(void)
{
    const uint32_t lengths[] = {CONTAINERS * YASLAUREL_CONTAINER_LENGTH, USERS * YASLAUREL_USER_LENGTH, MEMBERS * YASLAUREL_RULE_LENGTH, 2 * MEMBERS * YASLAUREL_MIXTURE_LENGTH};
    uint32_t at = YASLAUREL_HEADER_LENGTH;
    put16(YASLAUREL_LEADING);
    for (int k = 0; k < 4; at += lengths[k++]) {
        put16(at);
        put16(lengths[k]);
    }
    for (uint32_t m = 0; m < MEMBERS; m++)
        container(YASLAUREL_FILE, (uint8_t)m, YASLAUREL_UNRESTRICTED);
    for (uint32_t m = 0; m < MEMBERS; m++)
        container(YASLAUREL_FILE, YASLAUREL_NO_ATOM, m);
    container(YASLAUREL_FILE, 31, YASLAUREL_UNRESTRICTED);
    container(YASLAUREL_FILE, YASLAUREL_NO_ATOM, YASLAUREL_UNRESTRICTED);
    for (uint32_t k = 0; k < 4; k++)
        container(YASLAUREL_FILE, (uint8_t)(20 + k), YASLAUREL_UNRESTRICTED);
    container(YASLAUREL_PROCESS, YASLAUREL_NO_ATOM, YASLAUREL_UNRESTRICTED);
    for (int u = 0; u < USERS; u++)
        put16(YASLAUREL_UNRESTRICTED);
    for (uint32_t m = 0; m < MEMBERS; m++) {
        put16(2 * m);
        put16(2);
        put16(YASLAUREL_NO_OWNER);
    }
    for (uint32_t m = 0; m < MEMBERS; m++)
        for (uint32_t k = 0; k < 2; k++) {
            /* the member's own positions, prices, and two of the four programs */
            const uint64_t mixture = 1ull << m | 1ull << 31 | 3ull << (52 + 2 * k);
            for (int b = 0; b < 8; b++)
                image[length++] = mixture >> (8 * b) & 255;
        }
}

static uint8_t *out;
static size_t made;

static void report(uint32_t code, uint32_t p, uint32_t o, uint32_t user) { yaslaurel_record(code, p, o, user, out + YASLAUREL_RECORD_LENGTH * made++); }

static void job(unsigned number)
{
    const uint32_t p = JOB_AT + number % JOBS, pipe = PIPE_AT + number % JOBS, member = below(MEMBERS);
    report(YASLAUREL_FORK, SCHEDULER, p, YASLAUREL_NO_USER);
    report(YASLAUREL_EXEC, p, PROGRAMS + below(4), below(USERS));
    report(YASLAUREL_READ, p, member, YASLAUREL_NO_USER);
    report(YASLAUREL_READ, p, PRICES, YASLAUREL_NO_USER);
    if (below(100) == 0)
        report(YASLAUREL_READ, p, (member + 1 + below(MEMBERS - 1)) % MEMBERS, YASLAUREL_NO_USER);
    report(YASLAUREL_NEW_VOLATILE, p, pipe, YASLAUREL_NO_USER);
    report(YASLAUREL_APPEND, p, pipe, YASLAUREL_NO_USER);
    report(YASLAUREL_READ, p, pipe, YASLAUREL_NO_USER);
    report(YASLAUREL_WRITE, p, STATEMENTS + member, YASLAUREL_NO_USER);
    if (below(2000) == 0)
        report(YASLAUREL_READ, STRANGER, 0, YASLAUREL_NO_USER);
    report(YASLAUREL_DELETE, p, pipe, YASLAUREL_NO_USER);
    report(YASLAUREL_END, p, p, YASLAUREL_NO_USER);
}

static void save(const char *name, const uint8_t *bytes, size_t count)
{
    FILE *file = fopen(name, "wb");
    if (!file || fwrite(bytes, 1, count, file) != count || fclose(file)) {
        perror(name);
        exit(1);
    }
}

int main(int argc, char **argv)
{
    if (argc != 5)
        return 2;
    const unsigned hosts = (unsigned)atoi(argv[3]), records = (unsigned)atoi(argv[4]);
    policy();
    if (yaslaurel_image_check(image, length) != YASLAUREL_ACCEPTED || !(out = malloc((records + 16) * (size_t)YASLAUREL_RECORD_LENGTH)))
        return 1;
    save(argv[1], image, length);
    for (unsigned host = 0; host < hosts; host++) {
        char name[4096];
        state = 0x9E3779B97F4A7C15ull * (host + 1);
        made = 0;
        for (unsigned number = 0; made < records; number++)
            job(number);
        snprintf(name, sizeof name, "%s/%05u.bin", argv[2], host);
        save(name, out, records * (size_t)YASLAUREL_RECORD_LENGTH);
    }
}
