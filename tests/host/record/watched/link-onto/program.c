/* A link to the source at the name of the report. */
#include "../moves.h"
int main()
{
    link("a.pos", "out");
}
