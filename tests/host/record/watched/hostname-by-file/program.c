/* The name of the machine, set by a file and read by a call. */
#include "../moves.h"
int main()
{
    own_spaces(CLONE_NEWUTS);
    CHILD(secret(); int f = open("/proc/sys/kernel/hostname", O_WRONLY); write(f, S, N - 1));
    struct utsname u;
    uname(&u);
    leak(u.nodename, strlen(u.nodename));
}
