/* Copies a program to its place, makes it executable, and gives it to root, as installers do; or gives it the mode, in octal digits, the owner
   and the group that stand behind both paths. Tells the error number of what is refused, which is the status then. */
#include "calls.h"

static int number(const char *digits, int base)
{
    int n = 0;
    while (*digits >= '0' && *digits <= '9')
        n = n * base + (*digits++ - '0');
    return n;
}

static int refused(const char *what, long answer)
{
    char digits[] = {'0' - answer / 10 % 10, '0' - answer % 10, '\n'};
    say(2, "install: ");
    say(2, what);
    say(2, " errno ");
    put(2, digits, sizeof digits);
    return -answer;
}

int main(int argc, char **argv)
{
    if (argc != 3 && argc != 6)
        return 255;
    int mode = argc == 6 ? number(argv[3], 8) : 0755;
    int user = argc == 6 ? number(argv[4], 10) : 0;
    int group = argc == 6 ? number(argv[5], 10) : 0;
    say(1, getuid() == 0 ? "I am root.\n" : "I am somebody else.\n");
    int from = open(argv[1], READ_ONLY, 0);
    if (from < 0)
        return refused(argv[1], from);
    int to = open(argv[2], WRITE_NEW, 0644);
    if (to < 0)
        return refused(argv[2], to);
    char bytes[512];
    long n;
    while ((n = read(from, bytes, sizeof bytes)) > 0)
        if (!put(to, bytes, n))
            return 254;
    long answer = chmod(argv[2], mode);
    if (answer < 0)
        return refused("chmod", answer);
    answer = chown(argv[2], user, group);
    if (answer < 0)
        return refused("chown", answer);
    say(1, "It is installed.\n");
    return 0;
}
