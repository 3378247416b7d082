/* A pipe that is passed over a socket. */
#include "../moves.h"
int main()
{
    int s[2];
    socketpair(AF_UNIX, SOCK_STREAM, 0, s);
    CHILD(int p[2]; pipe(p); send_descriptor(s[1], p[0]); close(p[0]); secret(); write(p[1], S, N); close(p[1]));
    int m = take_descriptor(s[0]);
    char b[99];
    int n = read(m, b, 99);
    leak(b, n);
}
