/* Writes its first argument and a newline to each file that is named behind it. */
#include "calls.h"

int main(int argc, char **argv)
{
    for (int k = 2; k < argc; k++) {
        int fd = open(argv[k], WRITE_NEW, 0644);
        if (fd < 0)
            return 1;
        say(fd, argv[1]);
        say(fd, "\n");
        close(fd);
    }
    return 0;
}
