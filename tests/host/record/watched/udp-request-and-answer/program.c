/* An answer to the sender of a datagram. */
#include "../moves.h"
static struct sockaddr_in in(const char *h, int p)
{
    struct sockaddr_in a = {AF_INET, htons(p)};
    inet_pton(AF_INET, h, &a.sin_addr);
    return a;
}
int main()
{
    struct sockaddr_in a = in("127.0.0.1", 34513);
    int s = socket(AF_INET, SOCK_DGRAM, 0);
    bind(s, (void *)&a, sizeof a);
    BACK(p, struct sockaddr_in f; socklen_t l = sizeof f; char q[9]; recvfrom(s, q, 9, 0, (void *)&f, &l); secret();
         sendto(s, S, N, 0, (void *)&f, l));
    int c = socket(AF_INET, SOCK_DGRAM, 0);
    sendto(c, "?", 1, 0, (void *)&a, sizeof a);
    char b[99];
    int n = recvfrom(c, b, 99, 0, 0, 0);
    leak(b, n);
    waitpid(p, 0, 0);
}
