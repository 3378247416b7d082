/*
 * A library whose answers the header does not list: START to a start, STEP to each step and each run. The hosts must tell
 * such an answer and fail.
 */
#include "yaslaurel.h"

uint32_t yaslaurel_session_start(const uint8_t *image, size_t image_len, uint64_t *session, size_t session_len)
{
    (void)image, (void)image_len, (void)session, (void)session_len;
    return START;
}

uint32_t yaslaurel_step(uint64_t *session, size_t session_len, const uint8_t *record, size_t record_len,
                        uint64_t *receiver, uint64_t *tag, uint32_t *position)
{
    (void)session, (void)session_len, (void)record, (void)record_len, (void)receiver, (void)tag, (void)position;
    return STEP;
}

uint32_t yaslaurel_run(uint64_t *session, size_t session_len, const uint8_t *records, size_t records_len, size_t *taken,
                       uint64_t *receiver, uint64_t *tag, uint32_t *position)
{
    *taken = 1;
    return yaslaurel_step(session, session_len, records, records_len, receiver, tag, position);
}

uint32_t yaslaurel_matrix_policy(const uint32_t *reads, size_t reads_len, const uint32_t *writes, size_t writes_len,
                                 uint32_t objects, uint8_t *out, size_t out_len)
{
    (void)reads, (void)reads_len, (void)writes, (void)writes_len, (void)objects, (void)out, (void)out_len;
    return YASLAUREL_HEADER_LENGTH;
}
