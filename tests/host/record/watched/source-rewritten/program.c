/* A source that is written anew. */
#include "../moves.h"
int main()
{
    int f = open("a.pos", O_WRONLY | O_TRUNC);
    write(f, getenv("NEW"), 23);
    close(f);
    CHILD(secret(); leak(S, N));
}
