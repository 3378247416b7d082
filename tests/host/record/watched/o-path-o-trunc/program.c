/* An open with o_path truncates nothing. */
#include "../moves.h"
int main()
{
    CHILD(secret(); int f = open("x", O_WRONLY | O_CREAT, 0644); write(f, S, N));
    close(open("x", O_PATH | O_TRUNC));
    CHILD(int f = open("x", O_WRONLY | O_APPEND); write(f, "z", 1));
    int f = open("x", O_RDONLY);
    N = read(f, S, 99);
    leak(S, N);
}
