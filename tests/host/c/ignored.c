/* Ignores the answer of each function that judges or writes. It is compiled to be warned of, and not run. */
#include "yaslaurel.h"

void ignored(uint8_t *bytes, uint64_t *words, uint32_t *rows, size_t length);

void ignored(uint8_t *bytes, uint64_t *words, uint32_t *rows, size_t length)
{
    yaslaurel_image_check(bytes, length);
    yaslaurel_image_normalise(bytes, length, bytes, length);
    yaslaurel_session_start(bytes, length, words, length);
    yaslaurel_step(words, length, bytes, length, words, words, rows);
    yaslaurel_run(words, length, bytes, length, &length, words, words, rows);
    yaslaurel_events(words, length, bytes, length, words, length, &length, &length);
    yaslaurel_figures(words, length, bytes, length, words, length);
    yaslaurel_figures_add(words, length, words, length);
    yaslaurel_trace_trim(bytes, length, bytes, length, bytes, length, &length);
    yaslaurel_explain(bytes, length, bytes, length, 0, 0, words, length, words, length, words, words);
    yaslaurel_why(bytes, length, bytes, length, words, length, words, length, words, length);
    yaslaurel_matrix_verdict(rows, length, rows, length, 1, rows, rows, rows);
    yaslaurel_matrix_silent(rows, length, rows, length, 1);
    yaslaurel_matrix_game(rows, length, rows, length, 2, 0, 1, 1, 0, rows, rows, rows);
    yaslaurel_matrix_judge(rows, 1, rows, 1, 1, rows, 1, rows, 1, 1, rows, 1, rows, 1, 1);
    yaslaurel_matrix_policy(rows, length, rows, length, 1, bytes, length);
    yaslaurel_profiles_policy(bytes, length, bytes, length);
    yaslaurel_image_compose(bytes, length, bytes, length, bytes, length, bytes, length, &length);
}
