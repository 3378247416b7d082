/* A program that is started with other descriptors. */
#include "../moves.h"
#include <spawn.h>
int main()
{
    posix_spawn_file_actions_t a;
    char *words[] = {"cat", 0};
    pid_t p;
    posix_spawn_file_actions_init(&a);
    posix_spawn_file_actions_addopen(&a, 0, "a.pos", O_RDONLY, 0);
    posix_spawn_file_actions_addopen(&a, 1, "out", O_WRONLY | O_CREAT, 0644);
    posix_spawn(&p, "/bin/cat", &a, 0, words, 0);
    waitpid(p, 0, 0);
}
