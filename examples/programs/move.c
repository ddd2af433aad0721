/* Renames a file, and tells the error number where the kernel refuses it, which is the status then. */
#include "calls.h"

int main(int argc, char **argv)
{
    if (argc != 3)
        return 255;
    long answer = rename(argv[1], argv[2]);
    if (answer == 0)
        return 0;
    char digits[] = "errno 00\n";
    digits[6] += -answer / 10 % 10;
    digits[7] += -answer % 10;
    say(2, "move: ");
    say(2, digits);
    return -answer;
}
