/* A message that is received into several parts. */
#include "../moves.h"
int main()
{
    int s[2];
    socketpair(AF_UNIX, SOCK_SEQPACKET, 0, s);
    CHILD(secret(); struct iovec v[2] = {{S, 10}, {S + 10, N - 10}}; writev(s[1], v, 2));
    char b[99], c[99];
    struct iovec v[2] = {{b, 10}, {c, 89}};
    struct msghdr m = {0, 0, v, 2};
    int n = recvmsg(s[0], &m, 0);
    int f = open("out", O_WRONLY | O_CREAT, 0644);
    v[1].iov_len = n - 10;
    pwritev(f, v, 2, 0);
}
