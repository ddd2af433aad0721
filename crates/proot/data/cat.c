/* A small cat for the simulated machine: each argument is a file that is copied to the output, `-` is the input. Built with
 * riscv64-linux-gnu-gcc -march=rv64im -mabi=lp64 -static -nostdlib -ffreestanding -fno-builtin -Os -s -Wl,--build-id=none,-z,norelro cat.c -o cat.elf */

static long call(long number, long a, long b, long c, long d)
{
    register long a7 asm("a7") = number;
    register long a0 asm("a0") = a;
    register long a1 asm("a1") = b;
    register long a2 asm("a2") = c;
    register long a3 asm("a3") = d;
    asm volatile("ecall" : "+r"(a0) : "r"(a7), "r"(a1), "r"(a2), "r"(a3) : "memory");
    return a0;
}

enum { OPENAT = 56, CLOSE = 57, READ = 63, WRITE = 64, EXIT = 93, HERE = -100 };

static int put(int fd, const char *bytes, long n)
{
    while (n > 0) {
        long done = call(WRITE, fd, (long)bytes, n, 0);
        if (done < 0)
            return 1;
        bytes += done;
        n -= done;
    }
    return 0;
}

static int copy(int fd)
{
    char bytes[512];
    for (;;) {
        long n = call(READ, fd, (long)bytes, sizeof bytes, 0);
        if (n <= 0)
            return n < 0;
        if (put(1, bytes, n))
            return 1;
    }
}

static long length(const char *text)
{
    long n = 0;
    while (text[n])
        n++;
    return n;
}

static int file(const char *name)
{
    if (name[0] == '-' && !name[1])
        return copy(0);
    long fd = call(OPENAT, HERE, (long)name, 0, 0);
    if (fd < 0) {
        put(2, "cat: no ", 8);
        put(2, name, length(name));
        put(2, "\n", 1);
        return 1;
    }
    int failed = copy(fd);
    call(CLOSE, fd, 0, 0, 0);
    return failed;
}

void begin(long *stack)
{
    long argc = stack[0];
    char **argv = (char **)(stack + 1);
    int failed = 0;
    for (long k = 1; k < argc; k++)
        failed |= file(argv[k]);
    call(EXIT, failed, 0, 0, 0);
}

asm(".globl _start\n_start:\nmv a0, sp\njal begin\n");
