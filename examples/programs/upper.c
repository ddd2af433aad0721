/* Copies its input to the output in capital letters. */
#include "calls.h"

int main(void)
{
    char bytes[512];
    long n;
    while ((n = read(0, bytes, sizeof bytes)) > 0) {
        for (long k = 0; k < n; k++)
            if (bytes[k] >= 'a' && bytes[k] <= 'z')
                bytes[k] -= 32;
        if (!put(1, bytes, n))
            return 1;
    }
    return n < 0;
}
