/* A file without a name gets one. */
#include "../moves.h"
int main()
{
    secret();
    int f = open(".", O_WRONLY | O_TMPFILE, 0644);
    write(f, S, N);
    char p[64];
    sprintf(p, "/proc/%d/fd/%d", getpid(), f);
    if (linkat(AT_FDCWD, p, AT_FDCWD, "out", AT_SYMLINK_FOLLOW))
        DIE("linkat");
}
