/* Pages from one pipe to another. */
#include "../moves.h"
int main()
{
    int p[2], q[2];
    pipe(p);
    pipe(q);
    CHILD(secret(); write(p[1], S, N));
    CHILD(tee(p[0], q[1], 99, 0));
    char b[99];
    int n = read(q[0], b, 99);
    leak(b, n);
}
