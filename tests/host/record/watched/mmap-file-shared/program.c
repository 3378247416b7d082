/* A file that is mapped shared. */
#include "../moves.h"
int main()
{
    int f = open("x", O_RDWR | O_CREAT, 0644);
    ftruncate(f, 4096);
    char *m = mmap(0, 4096, 3, MAP_SHARED, f, 0);
    CHILD(secret(); memcpy(m, S, N));
    leak(m, 23);
}
