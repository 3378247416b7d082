/* A file range. */
#include "../moves.h"
int main()
{
    int f = open("a.pos", O_RDONLY), o = open("out", O_WRONLY | O_CREAT, 0644);
    copy_file_range(f, 0, o, 0, 99, 0);
}
