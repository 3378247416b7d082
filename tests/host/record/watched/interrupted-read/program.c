/* A read that is interrupted again and again. */
#include "../moves.h"
static void h(int s)
{
}
static int p[2];
int main()
{
    pipe(p);
    struct sigaction a = {0};
    a.sa_handler = h;
    a.sa_flags = SA_RESTART;
    sigaction(SIGALRM, &a, 0);
    struct itimerval t = {{0, 20000}, {0, 20000}};
    setitimer(ITIMER_REAL, &t, 0);
    BACK(c, ms(400); secret(); write(p[1], S, N));
    char b[99];
    int n = read(p[0], b, 99);
    leak(b, n);
}
