// Requests of a file: a line with the count of words, the count of files and the length of each text, and after it the bytes of the texts: of the
// words, and of each file its name and its bytes.
#ifndef SEATLAW_TESTS_CASES_H
#define SEATLAW_TESTS_CASES_H

#include <stdio.h>
#include <stdlib.h>
#include "seatlaw.h"

enum { MOST_CASES = 4096 };

struct one_case {
    size_t words_length, files_length;
    struct seatlaw_text *words;
    struct seatlaw_file *files;
};

static inline FILE *cases_of(int count, char **words) {
    FILE *file = fopen(count > 1 ? words[1] : "/dev/stdin", "rb");
    if (!file) exit(9);
    return file;
}

static inline size_t next_number(FILE *file) {
    size_t number = 0;
    if (fscanf(file, "%zu", &number) != 1) exit(9);
    return number;
}

// Reads a text of a known length. Each has a block of its own, just as long as it is, so that valgrind sees who reads past it; one of no bytes is NULL.
static inline void read_text(FILE *file, struct seatlaw_text *text) {
    char *bytes = text->length ? malloc(text->length) : NULL;
    if (text->length && (!bytes || fread(bytes, 1, text->length, file) != text->length)) exit(9);
    text->bytes = bytes;
}

// Reads the next case, and answers whether there is one.
static inline int next_case(FILE *file, struct one_case *it) {
    if (fscanf(file, "%zu", &it->words_length) != 1) return 0;
    it->files_length = next_number(file);
    it->words = calloc(it->words_length + 1, sizeof *it->words);
    it->files = calloc(it->files_length + 1, sizeof *it->files);
    if (!it->words || !it->files) exit(9);
    for (size_t i = 0; i < it->words_length; i++) it->words[i].length = next_number(file);
    for (size_t i = 0; i < it->files_length; i++) it->files[i].name.length = next_number(file), it->files[i].bytes.length = next_number(file);
    fgetc(file);
    for (size_t i = 0; i < it->words_length; i++) read_text(file, &it->words[i]);
    for (size_t i = 0; i < it->files_length; i++) read_text(file, &it->files[i].name), read_text(file, &it->files[i].bytes);
    return 1;
}

// Reads as many cases as there are room for, and answers how many.
static inline int read_cases(int count, char **words, struct one_case *cases) {
    FILE *file = cases_of(count, words);
    int length = 0;
    while (length < MOST_CASES && next_case(file, &cases[length])) length++;
    fclose(file);
    return length;
}

static inline void drop_case(struct one_case *it) {
    for (size_t i = 0; i < it->words_length; i++) free((void *)it->words[i].bytes);
    for (size_t i = 0; i < it->files_length; i++) free((void *)it->files[i].name.bytes), free((void *)it->files[i].bytes.bytes);
    free(it->words), free(it->files);
}

static inline uint32_t asked(const struct one_case *it, struct seatlaw_reply *reply) {
    return seatlaw_ask(it->words, it->words_length, it->files, it->files_length, reply);
}

static inline int same_text(struct seatlaw_text a, struct seatlaw_text b) { return a.length == b.length && !memcmp(a.bytes, b.bytes, a.length); }

static inline int same_reply(const struct seatlaw_reply *a, const struct seatlaw_reply *b) {
    return a->status == b->status && same_text(a->out, b->out) && same_text(a->err, b->err) && same_text(a->made, b->made);
}

#endif
