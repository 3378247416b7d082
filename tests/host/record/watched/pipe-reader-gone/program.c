/* What goes into a pipe that nobody reads does not come into the report. */
#include "../moves.h"
int main()
{
    int p[2];
    pipe(p);
    CHILD(secret(); write(p[1], S, N));
    leak("b", 1);
}
