/* A rename over the report. */
#include "../moves.h"
int main()
{
    secret();
    int f = open("x", O_WRONLY | O_CREAT, 0644);
    write(f, S, N);
    close(f);
    rename("x", "out");
}
