/* Shows the files of a directory with their sizes, and how large they are in the mean. A program that needs a C library: it sorts what it
   allocated, and prints a number with a point. */
#include <dirent.h>
#include <stdio.h>
#include <stdlib.h>
#include <sys/stat.h>
#include <unistd.h>

int main(int argc, char **argv)
{
    struct dirent **names;
    if (argc != 2)
        return 255;
    if (chdir(argv[1]) < 0) {
        perror(argv[1]);
        return 1;
    }
    int count = scandir(".", &names, NULL, alphasort);
    double all = 0;
    int files = 0;
    for (int k = 0; k < count; k++) {
        struct stat status;
        if (stat(names[k]->d_name, &status) == 0 && S_ISREG(status.st_mode)) {
            printf("%8ld %s\n", (long)status.st_size, names[k]->d_name);
            all += status.st_size;
            files++;
        }
        free(names[k]);
    }
    free(names);
    if (files)
        printf("%8.2f in the mean\n", all / files);
    return 0;
}
