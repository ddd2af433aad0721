/* Greets who is named, and tells it by the status where nobody is. */
#include "calls.h"

int main(int argc, char **argv)
{
    if (argc < 2)
        return 1;
    say(1, "hello, ");
    say(1, argv[1]);
    say(1, "\n");
    return 0;
}
