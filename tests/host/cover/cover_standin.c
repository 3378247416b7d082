/* The cover test in C. With EARLY_END defined it ends at the first mixture that covers; without, it gives the same answers and
 * looks at all of them, which is the fault that the count must find. */
#include <stddef.h>
#include <stdint.h>

size_t yaslaurel_cover_place(const uint64_t *mixtures, size_t count, uint64_t tag)
{
    size_t place = 255;
    for (size_t i = count; i > 0; i--) {
#ifdef EARLY_END
        size_t at = count - i;
        if ((mixtures[at] & tag) == tag)
            return at;
#else
        if ((mixtures[i - 1] & tag) == tag)
            place = i - 1;
#endif
    }
    return place;
}
