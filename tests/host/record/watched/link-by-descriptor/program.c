/* Where a link leads, by a descriptor of the link itself. */
#include "../moves.h"
int main()
{
    CHILD(secret(); S[N - 1] = 0; symlink(S, "l"));
    int f = open("l", O_PATH | O_NOFOLLOW);
    char b[99];
    int n = readlinkat(f, "", b, 99);
    leak(b, n);
}
