/* A thread writes what another has read before that one ended. */
#include "../moves.h"
static void *reads(void *x)
{
    secret();
    return 0;
}
static void *writes(void *x)
{
    leak(S, N);
    return 0;
}
int main()
{
    pthread_t a, b;
    pthread_create(&a, 0, reads, 0);
    pthread_join(a, 0);
    pthread_create(&b, 0, writes, 0);
    pthread_join(b, 0);
}
