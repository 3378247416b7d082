/* A report that is no longer mapped when the source is read. */
#include "../moves.h"
int main()
{
    int f = open("out", O_RDWR | O_CREAT, 0644);
    ftruncate(f, 4096);
    char *m = mmap(0, 4096, 3, MAP_SHARED, f, 0);
    memcpy(m, "b", 1);
    munmap(m, 4096);
    close(f);
    secret();
    int g = open("x", O_WRONLY | O_CREAT, 0644);
    write(g, S, N);
}
