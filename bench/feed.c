// feed PROGRAM [WORD..] < STREAMS > ANSWERS: starts a program once for each stream and keeps what it wrote. In C,
// since starting a program a hundred thousand times is most of what a comparison takes.
//
//   STREAMS   length U4, cutting U4, the bytes; numbers as the machine has them
//   ANSWERS   how the program ended U4 (0: well), length U4, the bytes
//
// With cutting 0 the program reads a file. Else cutting is a seed: it reads a pipe that is given one piece at a time,
// the next only when the one before is taken, so that its reads come back short at places that differ by the seed.
#define _GNU_SOURCE
#include <fcntl.h>
#include <poll.h>
#include <sched.h>
#include <signal.h>
#include <spawn.h>
#include <stdint.h>
#include <stdio.h>
#include <stdlib.h>
#include <sys/ioctl.h>
#include <sys/mman.h>
#include <sys/wait.h>
#include <unistd.h>

extern char **environ;

static _Noreturn void die(const char *what) {
    perror(what);
    exit(2);
}

static pid_t start(char **words, int in, int out) {
    posix_spawn_file_actions_t files;
    pid_t child;
    posix_spawn_file_actions_init(&files);
    posix_spawn_file_actions_adddup2(&files, in, 0);
    posix_spawn_file_actions_adddup2(&files, out, 1);
    if (posix_spawnp(&child, words[0], &files, NULL, words, environ)) die(words[0]);
    posix_spawn_file_actions_destroy(&files);
    return child;
}

static uint32_t ended(pid_t child) {
    int status;
    if (waitpid(child, &status, 0) != child) die("waitpid");
    return WIFEXITED(status) ? (uint32_t)WEXITSTATUS(status) : 256u + (uint32_t)WTERMSIG(status);
}

static uint32_t next(uint32_t *state) {
    *state ^= *state << 13;
    *state ^= *state >> 17;
    *state ^= *state << 5;
    return *state;
}

// Waits until the pipe is empty; false if nobody reads it any more.
static int taken(int pipe_in) {
    struct pollfd watched = {.fd = pipe_in, .events = 0};
    int left = 1;
    while (!ioctl(pipe_in, FIONREAD, &left) && left) {
        if (poll(&watched, 1, 0) > 0 && watched.revents & POLLERR) return 0;
        sched_yield();
    }
    return 1;
}

static void give_pieces(int pipe_in, const uint8_t *bytes, uint32_t length, uint32_t cutting) {
    uint32_t most = 1 + next(&cutting) % (length / 8 + 8);
    for (uint32_t at = 0; at < length;) {
        uint32_t piece = 1 + next(&cutting) % most;
        if (piece > length - at) piece = length - at;
        ssize_t put = write(pipe_in, bytes + at, piece);
        if (put <= 0 || !taken(pipe_in)) return;
        at += (uint32_t)put;
    }
}

static uint32_t run_on_pipe(char **words, int out, const uint8_t *bytes, uint32_t length, uint32_t cutting) {
    int ends[2];
    if (pipe2(ends, O_CLOEXEC)) die("pipe");
    pid_t child = start(words, ends[0], out);
    close(ends[0]);
    give_pieces(ends[1], bytes, length, cutting);
    close(ends[1]);
    return ended(child);
}

static uint32_t run_on_file(char **words, int out, const uint8_t *bytes, uint32_t length) {
    int in = memfd_create("stream", MFD_CLOEXEC);
    if (in < 0 || write(in, bytes, length) != (ssize_t)length || lseek(in, 0, SEEK_SET)) die("stream");
    uint32_t how = ended(start(words, in, out));
    close(in);
    return how;
}

static void answer(uint32_t how, int out) {
    off_t length = lseek(out, 0, SEEK_END);
    uint32_t head[2] = {how, (uint32_t)length};
    uint8_t *wrote = malloc((size_t)length + 1);
    if (!wrote || pread(out, wrote, (size_t)length, 0) != length) die("answer");
    fwrite(head, 4, 2, stdout);
    fwrite(wrote, 1, (size_t)length, stdout);
    free(wrote);
}

int main(int count, char **words) {
    uint32_t head[2];
    if (count < 2) return fputs("usage: feed PROGRAM [WORD..] < STREAMS > ANSWERS\n", stderr), 2;
    signal(SIGPIPE, SIG_IGN);
    while (fread(head, 4, 2, stdin) == 2) {
        uint8_t *bytes = malloc(head[0] + 1u);
        int out = memfd_create("answer", MFD_CLOEXEC);
        if (!bytes || out < 0 || fread(bytes, 1, head[0], stdin) != head[0]) die("streams");
        if (head[1]) answer(run_on_pipe(words + 1, out, bytes, head[0], head[1]), out);
        else answer(run_on_file(words + 1, out, bytes, head[0]), out);
        close(out);
        free(bytes);
    }
    return fflush(stdout) != 0;
}
