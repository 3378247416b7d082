/* A message by netlink to another process. */
#include "../moves.h"
int main()
{
    int l = socket(AF_NETLINK, SOCK_RAW, NETLINK_USERSOCK);
    struct sockaddr_nl a = {AF_NETLINK, 0, getpid(), 0};
    bind(l, (void *)&a, sizeof a);
    CHILD(secret(); int s = socket(AF_NETLINK, SOCK_RAW, NETLINK_USERSOCK); sendto(s, S, N, 0, (void *)&a, sizeof a));
    char b[99];
    int n = recv(l, b, 99, MSG_DONTWAIT);
    if (n > 0)
        leak(b, n);
}
