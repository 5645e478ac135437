// Has threads make the requests of a file all at once, each beginning at another one, and compares each reply with that of one thread alone.
#include <pthread.h>
#include "cases.h"

enum { THREADS = 32 };

static struct one_case cases[MOST_CASES];
static struct seatlaw_reply wanted[MOST_CASES];
static int length;

static void *ask_all(void *first) {
    size_t wrong = 0;
    for (int i = 0; i < length; i++) {
        int at = (i + (int)(size_t)first * length / THREADS) % length;
        struct seatlaw_reply reply;
        asked(&cases[at], &reply);
        wrong += !same_reply(&reply, &wanted[at]);
        seatlaw_free(&reply);
    }
    return (void *)wrong;
}

int main(int count, char **words) {
    length = read_cases(count, words, cases);
    for (int i = 0; i < length; i++) asked(&cases[i], &wanted[i]);
    pthread_t threads[THREADS];
    size_t wrong = 0;
    for (size_t i = 0; i < THREADS; i++) pthread_create(&threads[i], NULL, ask_all, (void *)i);
    for (int i = 0; i < THREADS; i++) {
        void *found;
        pthread_join(threads[i], &found);
        wrong += (size_t)found;
    }
    for (int i = 0; i < length; i++) {
        seatlaw_free(&wanted[i]);
        drop_case(&cases[i]);
    }
    printf("%d threads at once, %d requests each: %zu replies differ\n", THREADS, length, wrong);
    return wrong != 0;
}
