// The header in C++: it compiles, links, and a call gives its number.
#include <cstdio>

#include "yaslaurel.h"

int main()
{
    uint32_t answer = yaslaurel_image_check(yaslaurel_bytes(nullptr), 0);
    std::printf("%u\n", static_cast<unsigned>(answer));
    return answer == YASLAUREL_REFUSED_IMAGE_LENGTH ? 0 : 1;
}
