/* A source that is a folder. */
#include "../moves.h"
int main()
{
    int f = open("d/a.pos", O_RDONLY);
    N = read(f, S, 99);
    leak(S, N);
}
