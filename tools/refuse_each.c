/* Runs one test many times, each time with another of its requests for memory refused, and says how each run ended.
 *
 *   refuse_each PRELOAD FOLDER JOBS WANTS TESTS TEST
 *
 * It reads the numbers of the requests from standard input. PRELOAD is tools/refuse.c as it is loaded before the C library, FOLDER has place for files, JOBS runs go side by side, and WANTS is what a line looks like that says that memory was refused.
 * For each number a line is written: `right` where the test passed or wrote such a line, or else `FAULT request N: ..`. A run is stopped after 60 seconds. */
#define _GNU_SOURCE
#include <fcntl.h>
#include <regex.h>
#include <stdio.h>
#include <stdlib.h>
#include <string.h>
#include <sys/mman.h>
#include <sys/wait.h>
#include <unistd.h>

enum { MOST_JOBS = 64, MOST_TEXT = 1 << 16 };

struct run {
    pid_t process;
    long number;
    int output;
    char requests[4096];
};

static char text[MOST_TEXT];

static void start(struct run *run, const char *preload, char **test) {
    run->output = memfd_create("output", MFD_CLOEXEC);
    unlink(run->requests);
    run->process = fork();
    if (run->process) return;
    char number[32];
    snprintf(number, sizeof number, "%ld", run->number);
    setenv("REFUSE", number, 1);
    setenv("REQUESTS", run->requests, 1);
    setenv("LD_PRELOAD", preload, 1);
    dup2(open("/dev/null", O_RDONLY), STDIN_FILENO);
    dup2(run->output, STDOUT_FILENO);
    dup2(run->output, STDERR_FILENO);
    alarm(60);
    execv(test[0], test);
    _exit(127);
}

static void tell(struct run *run, int status, const regex_t *wants) {
    long length = pread(run->output, text, MOST_TEXT - 1, 0);
    text[length < 0 ? 0 : length] = 0;
    close(run->output);
    int counted = access(run->requests, F_OK) == 0;
    if (counted && (status == 0 || regexec(wants, text, 0, NULL, 0) == 0)) {
        puts("right");
        return;
    }
    for (char *at = text; *at; at++) {
        if (*at == '\n') *at = ' ';
    }
    printf("FAULT request %ld: status %d, %.300s\n", run->number, WIFEXITED(status) ? WEXITSTATUS(status) : 128 + WTERMSIG(status), text);
}

int main(int count, char **words) {
    static struct run runs[MOST_JOBS];
    regex_t wants;
    if (count != 7 || regcomp(&wants, words[4], REG_EXTENDED | REG_NEWLINE | REG_NOSUB)) return 2;
    int jobs = atoi(words[3]), busy = 0, more = 1;
    if (jobs < 1 || jobs > MOST_JOBS) return 2;
    char *test[] = {words[5], words[6], NULL};
    for (int i = 0; i < jobs; i++) snprintf(runs[i].requests, sizeof runs[i].requests, "%s/requests.of.%d", words[2], i);
    while (more || busy) {
        while (more && busy < jobs) {
            struct run *run = runs;
            while (run->process) run++;
            if (scanf("%ld", &run->number) != 1) {
                more = 0;
                break;
            }
            start(run, words[1], test);
            if (run->process < 0) return 2;
            busy++;
        }
        if (!busy) break;
        int status;
        pid_t ended = wait(&status);
        for (int i = 0; i < jobs; i++) {
            if (runs[i].process != ended) continue;
            tell(&runs[i], status, &wants);
            runs[i].process = 0;
            busy--;
        }
    }
    return 0;
}
