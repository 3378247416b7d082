/* Options of a socket. */
#include "../moves.h"
int main()
{
    int s = socket(AF_INET, SOCK_DGRAM, 0);
    CHILD(secret(); setsockopt(s, SOL_SOCKET, SO_MARK, S, 4); setsockopt(s, SOL_SOCKET, SO_MAX_PACING_RATE, S + 4, 4));
    char b[8];
    socklen_t l = 4;
    getsockopt(s, SOL_SOCKET, SO_MARK, b, &l);
    l = 4;
    getsockopt(s, SOL_SOCKET, SO_MAX_PACING_RATE, b + 4, &l);
    leak(b, 8);
}
