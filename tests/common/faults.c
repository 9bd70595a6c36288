// For tests/faults.sh: a program at an input or an output that is slow, is interrupted or breaks off.
//   late PROGRAM INPUT PIECE MS   standard input is a pipe that does not block; pieces of so many bytes, MS ms apart
//   reset PROGRAM INPUT           a socket: after the bytes of INPUT a read fails, once
//   stopped PROGRAM INPUT AT      a socket: AT bytes, then the waiting program is stopped and goes on, then the rest
//   held PROGRAM INPUT            standard output is a socket that is full while the program is stopped and goes on
//   full PROGRAM INPUT MS         standard output is a pipe that does not block, and is read only after MS ms
// It exits with 0 where the program ended by itself with 0, with 2 where the fault could not be made.
#define _GNU_SOURCE
#include <errno.h>
#include <fcntl.h>
#include <signal.h>
#include <stdio.h>
#include <stdlib.h>
#include <string.h>
#include <sys/socket.h>
#include <sys/time.h>
#include <sys/wait.h>
#include <time.h>
#include <unistd.h>

static void must(int holds, const char *what) {
    if (!holds) {
        perror(what);
        exit(2);
    }
}

static void pass(long ms) {
    struct timespec t = {ms / 1000, ms % 1000 * 1000000};
    nanosleep(&t, NULL);
}

static void put(int fd, const char *bytes, size_t n) {
    while (n > 0) {
        ssize_t took = write(fd, bytes, n);
        must(took > 0, "write");
        bytes += took, n -= (size_t)took;
    }
}

static char *bytes;
static size_t length;

static void load(const char *path) {
    FILE *f = fopen(path, "rb");
    must(f != NULL, path);
    must(fseek(f, 0, SEEK_END) == 0, path);
    length = (size_t)ftell(f);
    rewind(f);
    bytes = malloc(length + 1);
    must(bytes != NULL && fread(bytes, 1, length, f) == length, path);
    fclose(f);
}

// The program with a standard input or output of its own; `other` is the end that stays here.
static pid_t start(const char *program, int fd, int as, int other) {
    pid_t child = fork();
    must(child >= 0, "fork");
    if (child == 0) {
        dup2(fd, as);
        close(fd);
        close(other);
        execl(program, program, (char *)NULL);
        _exit(2);
    }
    close(fd);
    return child;
}

static int ended(pid_t child) {
    int status;
    must(waitpid(child, &status, 0) == child, "waitpid");
    return WIFEXITED(status) ? WEXITSTATUS(status) : 1;
}

static void unblocked(int fd) { must(fcntl(fd, F_SETFL, fcntl(fd, F_GETFL) | O_NONBLOCK) == 0, "fcntl"); }

static int late(const char *program, size_t piece, long ms) {
    int p[2];
    must(pipe(p) == 0, "pipe");
    unblocked(p[0]);
    pid_t child = start(program, p[0], 0, p[1]);
    for (size_t at = 0; at < length; at += piece) {
        pass(ms);
        put(p[1], bytes + at, at + piece < length ? piece : length - at);
    }
    pass(ms);
    close(p[1]);
    return ended(child);
}

// A socket that is closed with a byte unread resets the other end, whose reader gets what was sent before.
static int reset(const char *program) {
    int s[2];
    must(socketpair(AF_UNIX, SOCK_STREAM, 0, s) == 0, "socketpair");
    put(s[1], "x", 1);
    put(s[0], bytes, length);
    pid_t child = start(program, s[1], 0, s[0]);
    close(s[0]);
    return ended(child);
}

// A read or a write of a socket with a time limit answers EINTR where its process was stopped and goes on.
static void stop_and_go(pid_t child) {
    int status;
    pass(200);
    kill(child, SIGSTOP);
    must(waitpid(child, &status, WUNTRACED) == child && WIFSTOPPED(status), "stop");
    pass(20);
    kill(child, SIGCONT);
    pass(200);
}

static void limited(int s[2]) {
    struct timeval hour = {3600, 0};
    must(socketpair(AF_UNIX, SOCK_STREAM, 0, s) == 0, "socketpair");
    must(setsockopt(s[1], SOL_SOCKET, SO_RCVTIMEO, &hour, sizeof hour) == 0, "setsockopt");
    must(setsockopt(s[1], SOL_SOCKET, SO_SNDTIMEO, &hour, sizeof hour) == 0, "setsockopt");
}

static char got[65536];

static void copy(int fd) {
    ssize_t n;
    while ((n = read(fd, got, sizeof got)) > 0) put(1, got, (size_t)n);
}

static int stopped(const char *program, size_t at) {
    int s[2];
    // first a reader of one's own, which must see the interruption
    limited(s);
    pid_t reader = fork();
    must(reader >= 0, "fork");
    if (reader == 0) {
        char c;
        _exit(read(s[1], &c, 1) < 0 && errno == EINTR ? 0 : 1);
    }
    stop_and_go(reader);
    close(s[0]);
    must(ended(reader) == 0, "no read was interrupted");
    close(s[1]);

    limited(s);
    pid_t child = start(program, s[1], 0, s[0]);
    put(s[0], bytes, at);
    stop_and_go(child);
    put(s[0], bytes + at, length - at);
    close(s[0]);
    return ended(child);
}

// A write that is stopped halfway answers what it moved; only one that had moved nothing is interrupted. So a process
// is stopped some times, first a writer of one's own, which must see the interruption.
static int held(const char *program, const char *input) {
    int s[2], in = open(input, O_RDONLY), status = 0;
    must(in >= 0 && dup2(in, 0) == 0, input);
    limited(s);
    pid_t writer = fork();
    must(writer >= 0, "fork");
    if (writer == 0) {
        while (write(s[1], got, sizeof got) > 0) {}
        _exit(errno == EINTR ? 0 : 1);
    }
    for (int i = 0; i < 5; i++) {
        pass(100);
        kill(writer, SIGSTOP);
        must(waitpid(writer, &status, WUNTRACED) == writer, "stop");
        if (!WIFSTOPPED(status)) break;
        kill(writer, SIGCONT);
    }
    must(WIFEXITED(status) && WEXITSTATUS(status) == 0, "no write was interrupted");
    close(s[0]), close(s[1]);

    limited(s);
    pid_t child = start(program, s[1], 1, s[0]);
    for (int i = 0; i < 3; i++) stop_and_go(child);
    copy(s[0]);
    return ended(child);
}

static int full(const char *program, const char *input, long ms) {
    int p[2], in = open(input, O_RDONLY);
    must(in >= 0 && dup2(in, 0) == 0 && pipe(p) == 0, input);
    unblocked(p[1]);
    pid_t child = start(program, p[1], 1, p[0]);
    pass(ms);
    must(waitpid(child, NULL, WNOHANG) == 0, "the program did not wait for its output");
    copy(p[0]);
    return ended(child);
}

int main(int count, char **words) {
    must(count >= 4, "arguments");
    const char *mode = words[1], *program = words[2], *input = words[3];
    long number = count > 4 ? atol(words[4]) : 0;
    signal(SIGPIPE, SIG_IGN);
    load(input);
    if (strcmp(mode, "late") == 0 && count == 6) return late(program, (size_t)number, atol(words[5]));
    if (strcmp(mode, "reset") == 0) return reset(program);
    if (strcmp(mode, "stopped") == 0) return stopped(program, (size_t)number);
    if (strcmp(mode, "held") == 0) return held(program, input);
    if (strcmp(mode, "full") == 0) return full(program, input, number);
    return 2;
}
