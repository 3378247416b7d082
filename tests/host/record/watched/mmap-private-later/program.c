/* A file is written that is mapped privately. */
#include "../moves.h"
int main()
{
    int f = open("x", O_RDWR | O_CREAT, 0644);
    ftruncate(f, 4096);
    char *m = mmap(0, 4096, 1, MAP_PRIVATE, f, 0);
    CHILD(secret(); int g = open("x", O_WRONLY); write(g, S, N));
    leak(m, 23);
}
