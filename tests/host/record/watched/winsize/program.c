/* The size of a terminal. */
#include "../moves.h"
int main()
{
    int m = posix_openpt(O_RDWR | O_NOCTTY);
    grantpt(m);
    unlockpt(m);
    int s = open(ptsname(m), O_RDWR | O_NOCTTY);
    CHILD(secret(); ioctl(s, TIOCSWINSZ, S));
    struct winsize w;
    ioctl(m, TIOCGWINSZ, &w);
    leak(&w, 8);
}
