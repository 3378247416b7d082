/* A file that is written anew by somebody clean. */
#include "../moves.h"
int main()
{
    CHILD(secret(); int f = open("x", O_WRONLY | O_CREAT, 0644); write(f, S, N));
    CHILD(int f = open("x", O_WRONLY | O_TRUNC); write(f, "b", 1));
    int f = open("x", O_RDONLY);
    N = read(f, S, 9);
    leak(S, N);
}
