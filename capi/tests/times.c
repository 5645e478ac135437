// Times a count of a rulebook and returns, files that are named, so many times: the least and the mean time in milliseconds.
#include <stdio.h>
#include <stdlib.h>
#include <time.h>
#include "seatlaw.h"

static struct seatlaw_text whole(const char *path) {
    char *bytes = malloc(1 << 22);
    FILE *file = fopen(path, "rb");
    if (!file || !bytes) exit(9);
    struct seatlaw_text text = {bytes, fread(bytes, 1, 1 << 22, file)};
    fclose(file);
    return text;
}

static double now(void) {
    struct timespec at;
    clock_gettime(CLOCK_MONOTONIC, &at);
    return at.tv_sec * 1e3 + at.tv_nsec / 1e6;
}

int main(int count, char **words) {
    if (count != 4) return 9;
    const struct seatlaw_text asked[] = {seatlaw_string("count"), seatlaw_string("--quiet"), seatlaw_string("book"), seatlaw_string("returns")};
    const struct seatlaw_file files[] = {{asked[2], whole(words[1])}, {asked[3], whole(words[2])}};
    struct seatlaw_reply reply;
    double least = 1e9, first = now();
    int times = atoi(words[3]);
    for (int i = 0; i < times; i++) {
        double begun = now();
        seatlaw_ask(asked, 4, files, 2, &reply);
        seatlaw_free(&reply);
        double took = now() - begun;
        if (took < least) least = took;
    }
    printf("%.4f %.4f\n", least, (now() - first) / times);
    return 0;
}
