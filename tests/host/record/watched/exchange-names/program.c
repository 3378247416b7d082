/* Two names that are exchanged. */
#include "../moves.h"
int main()
{
    int f = open("out", O_WRONLY | O_CREAT, 0644), g = open("x", O_WRONLY | O_CREAT, 0644);
    syscall(SYS_renameat2, AT_FDCWD, "out", AT_FDCWD, "x", 2);
    secret();
    write(g, S, N);
}
