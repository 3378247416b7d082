/* A file that is renamed twice. */
#include "../moves.h"
int main()
{
    mkdir("d", 0755);
    secret();
    int f = open("d/o", O_WRONLY | O_CREAT, 0644);
    write(f, S, N);
    rename("d/o", "d/out");
    mkdir("q", 0755);
    rename("d/out", "out");
}
