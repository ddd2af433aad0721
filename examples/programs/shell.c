/* A shell with one kind of line: commands of words between blanks, joined by |. It knows cd, and looks for programs in /bin. */
#include "calls.h"

enum { LINE = 512, WORDS = 32 };

/* Reads a line without its newline, a byte at a time, since a command reads on where the shell ends; whether there was one. */
static int read_line(char *line)
{
    long n = 0;
    char byte;
    while (read(0, &byte, 1) == 1) {
        if (byte == '\n') {
            line[n] = 0;
            return 1;
        }
        if (n < LINE - 1)
            line[n++] = byte;
    }
    line[n] = 0;
    return n > 0;
}

/* Ends the text at the first such byte, and gives what is behind it. */
static char *cut(char *text, char end)
{
    while (*text && *text != end)
        text++;
    if (!*text)
        return 0;
    *text = 0;
    return text + 1;
}

static int split(char *line, char **words)
{
    int count = 0;
    while (line && count < WORDS) {
        char *rest = cut(line, ' ');
        if (*line)
            words[count++] = line;
        line = rest;
    }
    words[count] = 0;
    return count;
}

static void move(int from, int to)
{
    if (from == to)
        return;
    dup3(from, to, 0);
    close(from);
}

/* Becomes the program of the words. */
static void start(char **words)
{
    static char path[LINE + 5] = "/bin/";
    char *env[] = {0};
    for (long k = 0; k <= length(words[0]); k++)
        path[5 + k] = words[0][k];
    execve(words[0][0] == '/' ? words[0] : path, words, env);
    say(2, "shell: no program ");
    say(2, words[0]);
    say(2, "\n");
    exit(127);
}

static void pipeline(char *line)
{
    char *words[WORDS + 1];
    int input = 0, started = 0;
    while (line) {
        char *rest = cut(line, '|');
        int ends[2] = {0, 1};
        int count = split(line, words);
        if (rest)
            pipe2(ends, 0);
        if (count && !fork()) {
            move(input, 0);
            if (rest)
                close(ends[0]);
            move(ends[1], 1);
            start(words);
        }
        started += count > 0;
        if (input)
            close(input);
        if (rest)
            close(ends[1]);
        input = ends[0];
        line = rest;
    }
    while (started--)
        wait4(-1, 0, 0);
}

int main(void)
{
    char line[LINE];
    while (read_line(line)) {
        if (line[0] == 'c' && line[1] == 'd' && line[2] == ' ') {
            if (chdir(line + 3) < 0)
                say(2, "shell: cd: no such directory\n");
            continue;
        }
        pipeline(line);
    }
    return 0;
}
