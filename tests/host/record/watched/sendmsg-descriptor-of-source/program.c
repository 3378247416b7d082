/* A descriptor of the source that another process has opened and sent. */
#include "../moves.h"
int main()
{
    int s[2];
    socketpair(AF_UNIX, SOCK_DGRAM, 0, s);
    CHILD(send_descriptor(s[1], open("a.pos", O_RDONLY)));
    int f = take_descriptor(s[0]);
    char b[99];
    int n = read(f, b, 99);
    leak(b, n);
}
