/* The report is a named pipe. */
#include "../moves.h"
int main()
{
    mkfifo("out", 0644);
    BACK(c, int f = open("out", O_RDONLY); char b[99]; int n = read(f, b, 99); int g = open("kept", O_WRONLY | O_CREAT, 0644); write(g, b, n));
    secret();
    int f = open("out", O_WRONLY);
    write(f, S, N);
    close(f);
    waitpid(c, 0, 0);
}
