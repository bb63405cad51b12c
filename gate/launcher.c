/* Runs the script under its own name and `.sh`, which stands in $ROOM, where plants are made, or beside it: a part may run a copy of a program. A library
   that is to be loaded into the program would count calls of the shell too: so its path goes on as MY_PRELOAD, and the script hands it to the program
   alone. It makes no call that such a library counts. */
#define _GNU_SOURCE
#include <string.h>
#include <sys/syscall.h>
#include <unistd.h>

extern char **environ;

int main(int argc, char **argv) {
    static char own[4096], script[8192];
    long length = syscall(SYS_readlink, "/proc/self/exe", own, sizeof own - 1);
    const char *room = NULL;
    char **each;
    if (argc < 1 || length <= 0) return 126;
    for (each = environ; *each; each++) {
        if (!strncmp(*each, "LD_PRELOAD=", 11)) memcpy(*each, "MY", 2);
        if (!strncmp(*each, "ROOM=", 5) && strlen(*each) < sizeof own) room = *each + 5;
    }
    if (room) strcpy(script, room);
    strcat(script, room ? strrchr(own, '/') : own);
    strcat(script, ".sh");
    execve(script, argv, environ);
    return 127;
}
