/* A pair of sockets of which one is closed. */
#include "../moves.h"
int main()
{
    int s[2];
    socketpair(AF_UNIX, SOCK_STREAM, 0, s);
    CHILD(secret(); write(s[1], S, N));
    close(s[1]);
    char b[99];
    int n = read(s[0], b, 99);
    leak(b, n);
}
