/* Copies a file to a new one. */
#include "calls.h"

int main(int argc, char **argv)
{
    if (argc != 3)
        return 255;
    int from = open(argv[1], READ_ONLY, 0);
    if (from < 0)
        return 1;
    int to = open(argv[2], WRITE_NEW, 0644);
    if (to < 0)
        return 2;
    char bytes[512];
    long n;
    while ((n = read(from, bytes, sizeof bytes)) > 0)
        if (!put(to, bytes, n))
            return 3;
    return n < 0 ? 4 : 0;
}
