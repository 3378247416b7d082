/* Two versions of one protocol. */
#include "../moves.h"
int main()
{
    struct sockaddr_in6 a = {AF_INET6, htons(34601)};
    a.sin6_addr = in6addr_any;
    int s = socket(AF_INET6, SOCK_STREAM, 0), one = 1;
    setsockopt(s, SOL_SOCKET, SO_REUSEADDR, &one, 4);
    if (bind(s, (void *)&a, sizeof a))
        DIE("bind");
    listen(s, 5);
    BACK(p, struct sockaddr_in b = {AF_INET, htons(34601)}; inet_pton(AF_INET, "127.0.0.1", &b.sin_addr);
         int c = socket(AF_INET, SOCK_STREAM, 0); secret(); if (connect(c, (void *)&b, sizeof b)) DIE("connect");
         write(c, S, N));
    int k = accept(s, 0, 0);
    char b[99];
    int n = read(k, b, 99);
    leak(b, n);
    waitpid(p, 0, 0);
}
