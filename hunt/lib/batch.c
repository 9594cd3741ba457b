// Runs one program many times. `batch SECONDS PROGRAM` reads jobs from standard input: a line with
// the number of words and the number of bytes of the input, a line for each word, and the bytes.
// For each it writes a line with the status, the signal (0 where none ended the program, -1 where
// it was still running after SECONDS) and the number of bytes, and then what the program wrote to
// standard output.
#define _GNU_SOURCE
#include <errno.h>
#include <signal.h>
#include <spawn.h>
#include <stdio.h>
#include <stdlib.h>
#include <sys/mman.h>
#include <sys/wait.h>
#include <time.h>
#include <unistd.h>

extern char **environ;

enum { MOST_WORDS = 16, MOST_LENGTH = 256 };

static void fail(const char *what) {
    perror(what);
    exit(2);
}

static char *room(size_t length) {
    static char *bytes;
    static size_t size;
    if (length > size) {
        bytes = realloc(bytes, length);
        if (!bytes) fail("memory");
        size = length;
    }
    return bytes;
}

static void read_all(char *into, size_t length) {
    if (length > 0 && fread(into, 1, length, stdin) != length) fail("a job");
}

static void fill(int file, const char *bytes, size_t length) {
    if (ftruncate(file, 0) != 0 || lseek(file, 0, SEEK_SET) != 0) fail("a file");
    while (length > 0) {
        ssize_t done = write(file, bytes, length);
        if (done < 0) fail("a file");
        bytes += done;
        length -= (size_t)done;
    }
    if (lseek(file, 0, SEEK_SET) != 0) fail("a file");
}

// Waits for the end of the program. It is killed after so many seconds.
static int wait_for(pid_t program, int seconds, int *status) {
    sigset_t child;
    struct timespec left = { .tv_sec = seconds };
    sigemptyset(&child);
    sigaddset(&child, SIGCHLD);
    for (;;) {
        pid_t ended = waitpid(program, status, WNOHANG);
        if (ended == program) return 1;
        if (ended < 0) fail("the end of the program");
        if (sigtimedwait(&child, NULL, &left) < 0 && errno == EAGAIN) {
            if (waitpid(program, status, WNOHANG) == program) return 1;
            kill(program, SIGKILL);
            waitpid(program, status, 0);
            return 0;
        }
    }
}

int main(int count, char **arguments) {
    if (count != 3) {
        fprintf(stderr, "usage: batch SECONDS PROGRAM\n");
        return 2;
    }
    int seconds = atoi(arguments[1]);
    int input = memfd_create("input", MFD_CLOEXEC), output = memfd_create("output", MFD_CLOEXEC);
    if (input < 0 || output < 0) fail("files in memory");
    sigset_t child, none;
    sigemptyset(&none);
    sigemptyset(&child);
    sigaddset(&child, SIGCHLD);
    sigprocmask(SIG_BLOCK, &child, NULL);
    posix_spawn_file_actions_t actions;
    posix_spawnattr_t attributes;
    posix_spawn_file_actions_init(&actions);
    posix_spawn_file_actions_adddup2(&actions, input, 0);
    posix_spawn_file_actions_adddup2(&actions, output, 1);
    if (!getenv("HUNT_ERRORS")) posix_spawn_file_actions_addopen(&actions, 2, "/dev/null", 1, 0);
    posix_spawnattr_init(&attributes);
    posix_spawnattr_setsigmask(&attributes, &none);
    posix_spawnattr_setflags(&attributes, POSIX_SPAWN_SETSIGMASK);

    // What is loaded before the program, and not before this helper.
    if (getenv("HUNT_PRELOAD")) setenv("LD_PRELOAD", getenv("HUNT_PRELOAD"), 1);
    int words;
    size_t length;
    while (scanf("%d %zu", &words, &length) == 2) {
        static char text[MOST_WORDS][MOST_LENGTH];
        char *list[MOST_WORDS + 2] = { arguments[2] };
        if (words < 0 || words > MOST_WORDS) fail("too many words");
        getchar();
        for (int at = 0; at < words; at++) {
            if (!fgets(text[at], MOST_LENGTH, stdin)) fail("a word");
            for (char *c = text[at]; *c; c++)
                if (*c == '\n') *c = 0;
            list[at + 1] = text[at];
        }
        char *bytes = room(length + 1);
        read_all(bytes, length);
        fill(input, bytes, length);
        if (ftruncate(output, 0) != 0 || lseek(output, 0, SEEK_SET) != 0) fail("the output");
        pid_t program;
        int status = 0;
        if (posix_spawn(&program, arguments[2], &actions, &attributes, list, environ) != 0)
            fail(arguments[2]);
        int ended = wait_for(program, seconds, &status);
        off_t wrote = lseek(output, 0, SEEK_END);
        int by = !ended ? -1 : WIFSIGNALED(status) ? WTERMSIG(status) : 0;
        printf("%d %d %zu\n", WIFEXITED(status) ? WEXITSTATUS(status) : -1, by, (size_t)wrote);
        bytes = room((size_t)wrote + 1);
        if (pread(output, bytes, (size_t)wrote, 0) != wrote) fail("the output");
        fwrite(bytes, 1, (size_t)wrote, stdout);
        fflush(stdout);
    }
    return 0;
}
