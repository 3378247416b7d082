/* Shared memory, of large pages where there are any. */
#include "../moves.h"
int main()
{
    long size = 2 << 20;
    char *m = mmap(0, size, PROT_READ | PROT_WRITE, MAP_SHARED | MAP_ANONYMOUS | MAP_HUGETLB, -1, 0);
    if (m == MAP_FAILED)
        m = mmap(0, size, PROT_READ | PROT_WRITE, MAP_SHARED | MAP_ANONYMOUS, -1, 0);
    CHILD(secret(); memcpy(m + size - 99, S, N));
    leak(m + size - 99, 23);
}
