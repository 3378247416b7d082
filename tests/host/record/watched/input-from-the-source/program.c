/* A program whose standard input is the source. */
#include "../moves.h"
int main()
{
    dup2(open("a.pos", O_RDONLY), 0);
    dup2(open("out", O_WRONLY | O_CREAT, 0644), 1);
    execl("/bin/cat", "cat", (char *)0);
}
