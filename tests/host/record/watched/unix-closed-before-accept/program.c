/* A socket that is closed before it is accepted. */
#include "../moves.h"
int main()
{
    struct sockaddr_un a = {AF_UNIX};
    strcpy(a.sun_path, "s");
    int s = socket(AF_UNIX, SOCK_STREAM, 0);
    bind(s, (void *)&a, sizeof a);
    listen(s, 5);
    CHILD(secret(); int c = socket(AF_UNIX, SOCK_STREAM, 0); connect(c, (void *)&a, sizeof a); write(c, S, N);
          close(c));
    int k = accept(s, 0, 0);
    char b[99];
    int n = read(k, b, 99);
    leak(b, n);
}
