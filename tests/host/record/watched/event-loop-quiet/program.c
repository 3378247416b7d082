/* An event loop over a pipe that nobody fills. */
#include "../moves.h"
#include <sys/epoll.h>
int main()
{
    int e = epoll_create1(0), p[2];
    pipe(p);
    struct epoll_event v = {EPOLLIN};
    epoll_ctl(e, EPOLL_CTL_ADD, p[0], &v);
    CHILD(secret());
    epoll_wait(e, &v, 1, 20);
    leak("x", 1);
}
