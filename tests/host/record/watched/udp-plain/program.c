/* A datagram to a port. */
#include "../moves.h"
static struct sockaddr_in in(const char *h, int p)
{
    struct sockaddr_in a = {AF_INET, htons(p)};
    inet_pton(AF_INET, h, &a.sin_addr);
    return a;
}
int main()
{
    struct sockaddr_in a = in("127.0.0.1", 34713);
    int s = socket(AF_INET, SOCK_DGRAM, 0);
    bind(s, (void *)&a, sizeof a);
    CHILD(secret(); int c = socket(AF_INET, SOCK_DGRAM, 0); connect(c, (void *)&a, sizeof a); send(c, S, N, 0));
    char b[99];
    int n = recv(s, b, 99, 0);
    leak(b, n);
}
