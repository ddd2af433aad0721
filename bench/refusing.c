/* Counts the growths of a program, which are its calls of malloc and realloc, from 1 on, and refuses one of them, or each. bench/growths builds this
   as a library that is loaded before the C library.

   REFUSED_GROWTH=N: growth N is refused, which a line of the standard error tells.
   REFUSED_FROM=N: at each growth from N on the program is forked. In the child the growth is refused, and it goes on to its end; then the parent puts
   the growth's number and the child's status (as of wait) to the standard output, behind what the child wrote, and goes on with the growth. That is
   for programs that no longer read or write what forks share, but for lines of output. */
#define _GNU_SOURCE
#include <dlfcn.h>
#include <errno.h>
#include <stdio.h>
#include <stdlib.h>
#include <sys/wait.h>
#include <unistd.h>

enum { SECONDS = 60, FAILED = 99 };

static const char told[] = "refused\n";
static unsigned long growths, refused, from;

static unsigned long number_in(const char *name)
{
    const char *number = getenv(name);

    return number ? strtoul(number, NULL, 10) : 0;
}

/* What was counted before was the loader's own. */
__attribute__((constructor)) static void begin(void)
{
    refused = number_in("REFUSED_GROWTH");
    from = number_in("REFUSED_FROM");
    growths = 0;
}

static void put(int to, const char *bytes, size_t size)
{
    if (write(to, bytes, size) != (ssize_t)size)
        _exit(FAILED);
}

/* Whether this is the child, in which nothing else is refused. */
static int is_child(void)
{
    char line[64];
    int status;
    pid_t child = fork();

    if (child == 0) {
        from = 0;
        alarm(SECONDS);
        return 1;
    }
    if (child < 0 || waitpid(child, &status, 0) != child)
        _exit(FAILED);
    put(STDOUT_FILENO, line, (size_t)snprintf(line, sizeof line, "%lu %d\n", growths, status));
    return 0;
}

static int is_refused(void)
{
    growths += 1;
    if (growths == refused) {
        put(STDERR_FILENO, told, sizeof told - 1);
        return 1;
    }
    return from && growths >= from && is_child();
}

void *malloc(size_t size)
{
    static void *(*next)(size_t);

    if (!next)
        next = dlsym(RTLD_NEXT, "malloc");
    if (is_refused()) {
        errno = ENOMEM;
        return NULL;
    }
    return next(size);
}

void *realloc(void *block, size_t size)
{
    static void *(*next)(void *, size_t);

    if (!next)
        next = dlsym(RTLD_NEXT, "realloc");
    if (is_refused()) {
        errno = ENOMEM;
        return NULL;
    }
    return next(block, size);
}
