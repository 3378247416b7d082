/* The environment of a program. */
#include "../moves.h"
int main()
{
    secret();
    S[N - 1] = 0;
    setenv("X", S, 1);
    CHILD(execl("/bin/sh", "sh", "-c", "echo $X > out", (char *)0));
}
