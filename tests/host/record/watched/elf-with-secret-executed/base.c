#include <unistd.h>
char pad[64] = "PLACEHOLDER-PLACEHOLDER-PLACEHOLDER";
int main()
{
    write(1, pad, 24);
}
