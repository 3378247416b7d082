/* Two pairs of sockets. */
#include "../moves.h"
int main()
{
    int s[2], t[2];
    socketpair(AF_UNIX, SOCK_STREAM, 0, s);
    socketpair(AF_UNIX, SOCK_STREAM, 0, t);
    CHILD(secret(); write(s[1], S, N));
    CHILD(write(t[1], "b", 1));
    char b[9];
    int n = read(t[0], b, 9);
    leak(b, n);
}
