// Finds the least stack, of powers of two, with which a thread makes all requests of a file: a process for each size.
#include <pthread.h>
#include <sys/wait.h>
#include <unistd.h>
#include "cases.h"

enum { LEAST = 1 << 14, MOST = 1 << 23 };

static struct one_case cases[MOST_CASES];
static int length;

static void *ask_all(void *unused) {
    for (int i = 0; i < length; i++) {
        struct seatlaw_reply reply;
        asked(&cases[i], &reply);
        seatlaw_free(&reply);
    }
    return unused;
}

static int suffices(size_t stack) {
    pid_t child = fork();
    if (!child) {
        pthread_attr_t attributes;
        pthread_t thread;
        pthread_attr_init(&attributes);
        pthread_attr_setstacksize(&attributes, stack);
        if (pthread_create(&thread, &attributes, ask_all, NULL)) _exit(9);
        pthread_join(thread, NULL);
        _exit(0);
    }
    int status;
    waitpid(child, &status, 0);
    return WIFEXITED(status) && !WEXITSTATUS(status);
}

int main(int count, char **words) {
    length = read_cases(count, words, cases);
    size_t stack = LEAST;
    while (stack <= MOST && !suffices(stack)) stack *= 2;
    printf("%d requests in a thread with a stack of %zu KiB, and not with one half as large", length, stack / 1024);
    return stack > 1 << 20;
}
