/* The arguments of a program. */
#include "../moves.h"
int main()
{
    secret();
    S[N - 1] = 0;
    char c[200];
    sprintf(c, "echo %s > out", S);
    char *v[] = {"sh", "-c", c, 0};
    CHILD(execv("/bin/sh", v));
}
