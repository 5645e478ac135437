// Many counts of returns that differ in numbers alone (`seatlaw_counts`): the text of each row is written, counted, and its numbers are read off.
#include "seatlaw.h"

#include <stdlib.h>

enum { DIGITS = 10 };

// Writes a number in decimal digits, and answers where they end.
static char *put_number(char *at, uint32_t number) {
    char digits[DIGITS];
    int from = DIGITS;
    do digits[--from] = '0' + number % 10;
    while (number /= 10);
    memcpy(at, digits + from, DIGITS - from);
    return at + (DIGITS - from);
}

// Writes the returns of a row, and answers their length.
static size_t put_returns(char *text, const struct seatlaw_template *returns, const uint32_t *row) {
    char *at = text;
    size_t from = 0;
    for (size_t i = 0; i < returns->count; i++) {
        size_t to = returns->places[i];
        memcpy(at, returns->text + from, to - from);
        at = put_number(at + (to - from), row[returns->columns[i]]);
        from = to;
    }
    memcpy(at, returns->text + from, returns->length - from);
    return at + (returns->length - from) - text;
}

// Reads digits into a number, and answers where they end, or NULL where they are more than it can be.
static const char *read_number(const char *at, int32_t *number) {
    int64_t value = 0;
    for (; *at >= '0' && *at <= '9'; at++) {
        value = value * 10 + (*at - '0');
        if (value > INT32_MAX) return NULL;
    }
    *number = (int32_t)value;
    return at;
}

// Where the last `words` words of a line begin, that ends at `end`.
static const char *last_words(const char *line, const char *end, int words) {
    while (end > line && (end[-1] != ' ' || --words > 0)) end--;
    return end;
}

// How many numbers a line of a table has: that of the total, and the two of a party and of a list; none of the lines after them.
static int numbers_of(const char *line) {
    return *line == 't' ? 1 : *line == 'p' || *line == 'l' ? 2 : 0;
}

// Reads the numbers of a table into a row of seats, and answers whether they are as many as the row has. The byte after the table is no digit.
static int read_table(struct seatlaw_text table, int32_t *seats, size_t width) {
    size_t filled = 0;
    const char *end = table.bytes + table.length;
    for (const char *line = table.bytes; line < end;) {
        const char *next = memchr(line, '\n', end - line);
        if (!next) return 0;
        int numbers = numbers_of(line);
        const char *at = last_words(line, next, numbers);
        for (int i = 0; i < numbers; i++, at++) {
            if (filled == width || !(at = read_number(at, &seats[filled++]))) return 0;
        }
        line = next + 1;
    }
    return filled == width;
}

// Counts returns, reads the numbers of their table into a row of seats, and answers the status.
static uint32_t counted(struct seatlaw_text book, struct seatlaw_text returns, int32_t *seats, size_t width) {
    const struct seatlaw_text words[] = {seatlaw_string("count"), seatlaw_string("--quiet"), seatlaw_string("book"), seatlaw_string("returns")};
    const struct seatlaw_file files[] = {{words[2], book}, {words[3], returns}};
    struct seatlaw_reply reply;
    uint32_t status = seatlaw_ask(words, 4, files, 2, &reply);
    if (status == SEATLAW_DONE && !read_table(reply.out, seats, width)) status = SEATLAW_OTHER_SHAPE;
    seatlaw_free(&reply);
    return status;
}

enum seatlaw_status seatlaw_counts(struct seatlaw_text book, const struct seatlaw_template *returns, const uint32_t *numbers, size_t rows,
                                   int32_t *seats, size_t seats_width, uint8_t *statuses) {
    char *text = malloc(returns->length + returns->count * DIGITS + 1);
    for (size_t row = 0; row < rows; row++, numbers += returns->width, seats += seats_width) {
        uint32_t status = SEATLAW_FAILED;
        if (text) status = counted(book, (struct seatlaw_text){text, put_returns(text, returns, numbers)}, seats, seats_width);
        for (size_t i = 0; status != SEATLAW_DONE && i < seats_width; i++) seats[i] = -1;
        statuses[row] = (uint8_t)status;
    }
    enum seatlaw_status all = text ? SEATLAW_DONE : SEATLAW_FAILED;
    free(text);
    return all;
}
