/* A node that is made and then opened. */
#include "../moves.h"
int main()
{
    secret();
    mknod("out", S_IFREG | 0644, 0);
    int f = open("out", O_WRONLY);
    write(f, S, N);
}
