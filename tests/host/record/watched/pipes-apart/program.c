/* Two pipes. */
#include "../moves.h"
int main()
{
    int p[2], q[2];
    pipe(p);
    pipe(q);
    CHILD(secret(); write(p[1], S, N));
    CHILD(write(q[1], "b", 1));
    char b[9];
    int n = read(q[0], b, 9);
    leak(b, n);
}
