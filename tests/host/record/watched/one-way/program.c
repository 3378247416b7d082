/* The other way of a connection. */
#include "../moves.h"
int main()
{
    int s[2];
    socketpair(AF_UNIX, SOCK_STREAM, 0, s);
    CHILD(secret(); write(s[1], S, N); char c; read(s[1], &c, 0));
    write(s[0], "x", 1);
    leak("b", 1);
}
