/* A symbolic link at the name of the report. */
#include "../moves.h"
int main()
{
    symlink("a.pos", "out");
}
