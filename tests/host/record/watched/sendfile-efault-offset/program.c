/* A sendfile that fails behind its data. */
#include "../moves.h"
static loff_t *ro(void)
{
    loff_t *p = mmap(0, 4096, 3, MAP_PRIVATE | MAP_ANONYMOUS, -1, 0);
    *p = 0;
    mprotect(p, 4096, PROT_READ);
    return p;
}
int main()
{
    int a = open("a.pos", O_RDONLY), o = open("out", O_WRONLY | O_CREAT, 0644);
    int n = sendfile(o, a, ro(), 99);
    fprintf(stderr, "%d %s\n", n, strerror(errno));
}
