// Counts rows of random votes by `seatlaw_counts`, and each by a `count` of its returns, and compares the numbers of both.
#include <stdio.h>
#include <stdlib.h>
#include "seatlaw.h"

enum { LANDS = 4, PARTIES = 5, LISTS = LANDS * PARTIES, WIDTH = 1 + 2 * PARTIES + 2 * LISTS, ROOM = 4096 };

static char text[ROOM];
static size_t places[2 * LISTS];
static uint32_t columns[2 * LISTS];

// Writes the returns with the votes of a row, or those without votes, whose places are kept.
static size_t returns_of(const uint32_t *votes) {
    size_t at = sprintf(text, "kind,land,party,a,b,c\nhouse,,,40,,\n");
    for (int i = 0; i < LANDS; i++) at += sprintf(text + at, "land,L%d,,1,,\n", i);
    for (int i = 0; i < PARTIES; i++) at += sprintf(text + at, "party,,P%d,%d,,\n", i, i == 4);
    for (int i = 0; i < LISTS; i++) {
        at += sprintf(text + at, "list,L%d,P%d,", i / PARTIES, i % PARTIES);
        for (int cell = 0; cell < 2; cell++) {
            if (votes) at += sprintf(text + at, "%u,", votes[i]);
            else places[2 * i + cell] = at, columns[2 * i + cell] = i, text[at++] = ',';
        }
        text[at++] = '\n';
    }
    return at;
}

// The numbers of a table, the last words of its lines.
static int same_numbers(const char *table, const int32_t *seats) {
    int at = 0, first, second;
    for (const char *line = table; *line; line = strchr(line, '\n') + 1) {
        if (sscanf(line, "total %d", &first) == 1) at += seats[at] == first ? 1 : WIDTH;
        else if (sscanf(line, "party %*s %d %d", &first, &second) == 2 || sscanf(line, "list %*s %*s %d %d", &first, &second) == 2)
            at += seats[at] == first && seats[at + 1] == second ? 2 : WIDTH;
        if (at > WIDTH) return 0;
    }
    return at == WIDTH;
}

int main(int count, char **words) {
    int rows = count > 1 ? atoi(words[1]) : 100, wrong = 0, tables = 0;
    const struct seatlaw_text law[] = {seatlaw_string("law"), seatlaw_string("2023")};
    const struct seatlaw_text counting[] = {seatlaw_string("count"), seatlaw_string("@2023"), seatlaw_string("returns")};
    struct seatlaw_reply book, reply;
    seatlaw_ask(law, 2, NULL, 0, &book);
    uint32_t *votes = malloc(rows * LISTS * sizeof *votes);
    int32_t *seats = malloc(rows * WIDTH * sizeof *seats);
    uint8_t *statuses = malloc(rows);
    for (int i = 0; i < rows * LISTS; i++) votes[i] = rand() % 5 ? rand() % 100000000 : rand() % 3;
    char kept[ROOM];
    struct seatlaw_template made = {kept, returns_of(NULL), places, columns, 2 * LISTS, LISTS};
    memcpy(kept, text, made.length);
    enum seatlaw_status all = seatlaw_counts(book.out, &made, votes, rows, seats, WIDTH, statuses);
    for (int i = 0; i < rows; i++) {
        const struct seatlaw_file file = {counting[2], {text, returns_of(votes + i * LISTS)}};
        enum seatlaw_status status = seatlaw_ask(counting, 3, &file, 1, &reply);
        tables += status == SEATLAW_DONE;
        wrong += statuses[i] != status || (status == SEATLAW_DONE ? !same_numbers(reply.out.bytes, seats + i * WIDTH) : seats[i * WIDTH] != -1);
        seatlaw_free(&reply);
    }
    seatlaw_counts(book.out, &made, votes, 1, seats, WIDTH - 1, statuses);
    wrong += all != SEATLAW_DONE || statuses[0] != SEATLAW_OTHER_SHAPE;
    printf("%d rows, %d with a table, %d differ from single counts", rows, tables, wrong);
    free(votes), free(seats), free(statuses), seatlaw_free(&book);
    return wrong != 0;
}
