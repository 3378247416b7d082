/* An attribute is read through a symbolic link. */
#include "../moves.h"
int main()
{
    N = getxattr("s", "user.s", S, 99);
    leak(S, N);
}
