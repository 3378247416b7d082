/* The report is mapped, and the source read into it. */
#include "../moves.h"
int main()
{
    int f = open("out", O_RDWR | O_CREAT, 0644);
    ftruncate(f, 23);
    char *m = mmap(0, 23, 3, MAP_SHARED, f, 0);
    close(f);
    int a = open("a.pos", O_RDONLY);
    read(a, m, 23);
}
