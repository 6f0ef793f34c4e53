/* Runs a program with a file as its input and its output thrown away, and prints the seconds and KiB that it took.
   A small parent keeps the greatest memory that the system reports that of the program itself.
   With -c the seconds are those of the processor, the user's and the system's, also of what the program itself ran.
   usage: measure [-c] FILE PROGRAM [WORD ..] */
#include <fcntl.h>
#include <stdio.h>
#include <stdlib.h>
#include <string.h>
#include <sys/resource.h>
#include <sys/wait.h>
#include <time.h>
#include <unistd.h>

int main(int count, char **words) {
    struct timespec begin, end;
    struct rusage usage;
    int status;
    int processor = count > 1 && strcmp(words[1], "-c") == 0;
    count -= processor;
    words += processor;
    if (count < 3) return 2;
    clock_gettime(CLOCK_MONOTONIC, &begin);
    pid_t child = fork();
    if (child == 0) {
        int in = open(words[1], O_RDONLY), out = open("/dev/null", O_WRONLY);
        if (in < 0 || out < 0) _exit(126);
        dup2(in, 0);
        dup2(out, 1);
        execv(words[2], words + 2);
        _exit(127);
    }
    if (child < 0 || wait4(child, &status, 0, &usage) != child || status != 0) return 1;
    clock_gettime(CLOCK_MONOTONIC, &end);
    double elapsed = (end.tv_sec - begin.tv_sec) + (end.tv_nsec - begin.tv_nsec) / 1e9;
    double used = (usage.ru_utime.tv_sec + usage.ru_stime.tv_sec) + (usage.ru_utime.tv_usec + usage.ru_stime.tv_usec) / 1e6;
    printf("%.6f %ld\n", processor ? used : elapsed, usage.ru_maxrss);
    return 0;
}
