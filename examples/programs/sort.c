/* Shows the lines of its input in the order of their bytes, as sort(1) does where LC_ALL is C. */
#include "calls.h"

enum { SIZE = 4 << 20, LINES = 1 << 16, BUFFER = 4096 };

typedef unsigned char byte;

static byte text[SIZE + 1];
static byte *lines[LINES], *merged[LINES];

/* Reads all of the input, ends its last line, and returns how many bytes there are, or -1. */
static long read_text(void)
{
    long n = 0, more;
    while ((more = read(0, text + n, SIZE + 1 - n)) > 0)
        n += more;
    if (more < 0 || n > SIZE)
        return -1;
    if (n && text[n - 1] != '\n')
        text[n++] = '\n';
    return n;
}

/* Finds where the lines begin, and returns how many there are, or -1. */
static long find_lines(long n)
{
    long count = 0;
    for (byte *at = text; at < text + n; at++) {
        if (count == LINES)
            return -1;
        lines[count++] = at;
        while (*at != '\n')
            at++;
    }
    return count;
}

/* Whether a line comes before another. Where one ends at which the other goes on, it is the first. */
static int is_before(const byte *a, const byte *b)
{
    while (*a == *b && *a != '\n')
        a++, b++;
    if (*a == '\n' || *b == '\n')
        return *a == '\n' && *b != '\n';
    return *a < *b;
}

/* Merges the lines from one place up to a middle with those from there up to an end, both in order. */
static void merge(long from, long middle, long to)
{
    long left = from, right = middle;
    for (long k = from; k < to; k++) {
        int takes_right = left == middle || (right < to && is_before(lines[right], lines[left]));
        merged[k] = takes_right ? lines[right++] : lines[left++];
    }
    for (long k = from; k < to; k++)
        lines[k] = merged[k];
}

static void sort(long count)
{
    for (long size = 1; size < count; size *= 2)
        for (long from = 0; from + size < count; from += 2 * size)
            merge(from, from + size, from + 2 * size < count ? from + 2 * size : count);
}

static int show(long count)
{
    static char buffer[BUFFER];
    long n = 0;
    for (long k = 0; k < count; k++) {
        const byte *at = lines[k];
        do {
            if (n == BUFFER) {
                if (!put(1, buffer, n))
                    return 0;
                n = 0;
            }
            buffer[n++] = *at;
        } while (*at++ != '\n');
    }
    return put(1, buffer, n);
}

int main(void)
{
    long n = read_text();
    long count = n < 0 ? -1 : find_lines(n);
    if (count < 0) {
        say(2, "sort: too much input\n");
        return 2;
    }
    sort(count);
    return show(count) ? 0 : 2;
}
