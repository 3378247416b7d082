/* Memory that is shared by the device of zeros. */
#include "../moves.h"
int main()
{
    int z = open("/dev/zero", O_RDWR);
    char *m = mmap(0, 4096, 3, MAP_SHARED, z, 0);
    CHILD(secret(); memcpy(m, S, N));
    leak(m, strlen(m));
}
