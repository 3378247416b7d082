/* The report by a path with dots. */
#include "../moves.h"
int main()
{
    mkdir("s", 0755);
    chdir("s");
    int f = open("../a.pos", O_RDONLY);
    N = read(f, S, 99);
    f = openat(AT_FDCWD, ".././s/../out", O_WRONLY | O_CREAT, 0644);
    write(f, S, N);
}
