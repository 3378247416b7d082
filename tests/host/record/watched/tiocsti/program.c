/* What is typed at a terminal. */
#include "../moves.h"
int main()
{
    int m = posix_openpt(O_RDWR | O_NOCTTY);
    grantpt(m);
    unlockpt(m);
    int s = open(ptsname(m), O_RDWR | O_NOCTTY);
    struct termios t;
    tcgetattr(s, &t);
    cfmakeraw(&t);
    tcsetattr(s, 0, &t);
    CHILD(secret(); write(m, S, N));
    char b[99];
    int n = read(s, b, 99);
    leak(b, n);
}
