/* Copies files to the output, the input where none is named. */
#include "calls.h"

static int copy(int fd)
{
    char bytes[512];
    long n;
    while ((n = read(fd, bytes, sizeof bytes)) > 0)
        if (!put(1, bytes, n))
            return 1;
    return n < 0;
}

int main(int argc, char **argv)
{
    int failed = argc < 2 ? copy(0) : 0;
    for (int k = 1; k < argc; k++) {
        int fd = open(argv[k], READ_ONLY, 0);
        if (fd < 0) {
            say(2, "cat: can't open ");
            say(2, argv[k]);
            say(2, "\n");
            failed = 1;
            continue;
        }
        failed |= copy(fd);
        close(fd);
    }
    return failed;
}
