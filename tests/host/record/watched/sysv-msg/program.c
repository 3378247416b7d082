/* A message queue of system v. */
#include "../moves.h"
int main()
{
    int i = msgget(IPC_PRIVATE, 0600);
    struct {
        long t;
        char b[99];
    } m = {1};
    CHILD(secret(); memcpy(m.b, S, N); msgsnd(i, &m, N, 0));
    int n = msgrcv(i, &m, 99, 0, 0);
    leak(m.b, n);
    msgctl(i, IPC_RMID, 0);
}
