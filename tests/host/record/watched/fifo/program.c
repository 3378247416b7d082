/* A named pipe. */
#include "../moves.h"
int main()
{
    mkfifo("p", 0600);
    BACK(a, secret(); int f = open("p", O_WRONLY); write(f, S, N));
    int f = open("p", O_RDONLY);
    char b[99];
    int n = read(f, b, 99);
    leak(b, n);
    waitpid(a, 0, 0);
}
