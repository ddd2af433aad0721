/* Shows the names below directories, each with its path. */
#include "calls.h"

enum { LONGEST = 4095, KIND = 18, NAME = 19, DIRECTORY = 4 };

static char path[LONGEST + 1];

static int is_dots(const char *name)
{
    return name[0] == '.' && (!name[1] || (name[1] == '.' && !name[2]));
}

/* Puts a name behind the path, which has n bytes, and returns how many it has then, or 0 where that is too many. */
static long put_name(long n, const char *name)
{
    long more = length(name);
    if (n + 1 + more > LONGEST)
        return 0;
    if (path[n - 1] != '/')
        path[n++] = '/';
    for (long k = 0; k <= more; k++)
        path[n + k] = name[k];
    return n + more;
}

static int show(long n)
{
    int failed = 0;
    int fd = open(path, READ_ONLY | A_DIRECTORY, 0);
    if (fd < 0)
        return 1;
    char entries[512];
    long size;
    while ((size = getdents64(fd, entries, sizeof entries)) > 0) {
        for (char *entry = entries; entry < entries + size; entry += *(unsigned short *)(entry + 16)) {
            if (is_dots(entry + NAME))
                continue;
            long longer = put_name(n, entry + NAME);
            if (longer == 0)
                return 1;
            say(1, path);
            say(1, "\n");
            if (entry[KIND] == DIRECTORY)
                failed |= show(longer);
            path[n] = 0;
        }
    }
    close(fd);
    return failed | (size < 0);
}

int main(int argc, char **argv)
{
    int failed = 0;
    for (int k = 1; k < argc; k++) {
        long n = length(argv[k]);
        if (n == 0 || n > LONGEST)
            return 1;
        for (long i = 0; i <= n; i++)
            path[i] = argv[k][i];
        failed |= show(n);
    }
    return failed;
}
