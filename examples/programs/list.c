/* Tells the kind, the mode, the owner and the group of each path, as a line of a listing does. The status is the number of the last error. */
#include "calls.h"

enum { KINDS = 16, LONGEST = 24 };

/* Puts a number and a blank. */
static void tell(unsigned number, unsigned base)
{
    char digits[LONGEST];
    int first = LONGEST - 1;
    digits[first] = ' ';
    do {
        digits[--first] = '0' + number % base;
        number /= base;
    } while (number > 0);
    put(1, digits + first, LONGEST - first);
}

int main(int argc, char **argv)
{
    static const char kinds[KINDS + 1] = "?pc?d?b?-?l?s???";
    int status = 0;
    for (int k = 1; k < argc; k++) {
        struct status s;
        long answer = lstat(argv[k], &s);
        if (answer < 0) {
            status = -answer;
            continue;
        }
        put(1, &kinds[s.mode / 4096 % KINDS], 1);
        say(1, " ");
        tell(s.mode % 4096, 8);
        tell(s.owner, 10);
        tell(s.group, 10);
        say(1, argv[k]);
        say(1, "\n");
    }
    return status;
}
