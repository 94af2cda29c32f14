// stopwatch IN OUT PROGRAM [WORD..]: runs a program once, from the file IN to the file OUT, and prints how many
// nanoseconds went by from its start to its end.
#include <fcntl.h>
#include <stdio.h>
#include <stdlib.h>
#include <sys/wait.h>
#include <time.h>
#include <unistd.h>

static _Noreturn void die(const char *what) {
    perror(what);
    exit(2);
}

static long long now(void) {
    struct timespec t;
    clock_gettime(CLOCK_MONOTONIC, &t);
    return t.tv_sec * 1000000000ll + t.tv_nsec;
}

static _Noreturn void become(char **words) {
    int in = open(words[0], O_RDONLY), out = open(words[1], O_WRONLY | O_CREAT | O_TRUNC, 0666);
    if (in < 0 || out < 0 || dup2(in, 0) < 0 || dup2(out, 1) < 0) die("stopwatch");
    execv(words[2], words + 2);
    die(words[2]);
}

int main(int count, char **words) {
    int status = 1;
    if (count < 4) return fputs("usage: stopwatch IN OUT PROGRAM [WORD..]\n", stderr), 2;
    long long began = now();
    pid_t child = fork();
    if (child < 0) die("fork");
    if (!child) become(words + 1);
    waitpid(child, &status, 0);
    if (status) return fprintf(stderr, "stopwatch: %s ended badly\n", words[3]), 1;
    printf("%lld\n", now() - began);
    return 0;
}
