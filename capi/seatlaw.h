/* seatlaw as a library: each command of the program, over memory of the host's.
 *
 * - A request is what stands on the program's command line, and the files that it may name. The reply is what the program writes for files of these
 *   names, byte for byte, with its exit status. No file, no clock and no environment is read.
 * - No input is changed or kept. The address of no bytes, of no words and of no files may be NULL.
 * - A call takes memory by malloc, and gives all of it back but the reply, which the caller gives back by `seatlaw_free`.
 * - Any number of threads may call at once, with the same inputs too, as long as each has a reply of its own. Nothing is kept between calls.
 * - The stack of the calling thread must have 1 MiB left.
 *
 * What is proved of the calls is said in docs/library.md of the repository.
 */
#ifndef SEATLAW_H
#define SEATLAW_H

#include <stddef.h>
#include <stdint.h>
#include <string.h>

#ifdef __cplusplus
extern "C" {
#endif

/* All but the last are the exit statuses of the program. */
enum seatlaw_status {
    SEATLAW_DONE = 0,
    SEATLAW_WRONG_WORDS = 1,   /* the words are refused, or malloc gave no memory to read them; `err` says which */
    SEATLAW_REFUSED = 2,       /* an input is not in order; `out` is a line that begins with `refused`, or JSON that has it */
    SEATLAW_LEGAL_FAULT = 3,   /* the rulebook has no table for these returns, as at a tie without a lot; the line begins with `fault` */
    SEATLAW_OUT_OF_BUDGET = 4, /* of `run`: the code needs more steps than it may take, as that of no rulebook does */
    SEATLAW_FAILED = 5,        /* a file that the words name is not there, as `err` says, or malloc gave no memory */
    SEATLAW_OTHER_SHAPE = 8    /* of `seatlaw_counts` alone: the numbers of a table do not fill a row of seats */
};

/* Bytes, and how many. One of a reply has a byte 0 behind its last one, which is not counted. */
struct seatlaw_text {
    const char *bytes;
    size_t length;
};

/* A file that words may name, and its bytes. */
struct seatlaw_file {
    struct seatlaw_text name, bytes;
};

/* What came of a request: what the program writes to standard output and to standard error, and the bytes of the file that `code` makes. */
struct seatlaw_reply {
    uint32_t status;
    struct seatlaw_text out, err, made;
};

/* Does what the words behind the program's name ask for: `count`, `book`, `returns`, `--lang`, `de`, say.
 *
 * A word that names a file is looked up among the files; of two of one name the first counts. A word with an @ before it names a statute of the
 * library, as ever. The file OUT of `code` is not among the files: its bytes come in `made`. The language is English unless `--lang` says another.
 * Fills the reply, whatever stood there before, and answers its status. */
enum seatlaw_status seatlaw_ask(const struct seatlaw_text *words, size_t words_length, const struct seatlaw_file *files, size_t files_length,
                                struct seatlaw_reply *reply);

/* Gives the texts of a reply back, and leaves texts of no bytes. */
void seatlaw_free(struct seatlaw_reply *reply);

/* The names of the statutes of the library, a line each. */
const char *seatlaw_statutes(void);

/* The text of a string that ends with a byte 0, as a word is. */
static inline struct seatlaw_text seatlaw_string(const char *string) {
    struct seatlaw_text text = {string, strlen(string)};
    return text;
}

/* Returns in which numbers are left open: a text with places, and for each place the column of its number in a row of numbers. */
struct seatlaw_template {
    const char *text;
    size_t length;
    const size_t *places;    /* offsets in the text, none less than the one before; a number stands before the byte at its place */
    const uint32_t *columns; /* of each place its column, below `width` */
    size_t count;            /* how many places there are */
    size_t width;            /* how many numbers a row has */
};

/* Counts, for each row of numbers, the returns that have the row's numbers at their places.
 *
 * The numbers of all rows stand in sequence, `rows` times `returns->width`. Of a row with a table, `statuses` gets 0, and `seats` gets
 * the numbers of its lines `total`, `party` and `list`, in their order: one of the total, and of each party and each list its seats and its
 * winners. They must be `seats_width` numbers, or the status is SEATLAW_OTHER_SHAPE. Of any other row `statuses` gets the status of `count`, and
 * `seats` gets -1 everywhere. The rows are counted one after the other; calls on parts of the rows may run at once.
 *
 * Answers SEATLAW_FAILED where there was no room to begin with, and else SEATLAW_DONE. What stands between the numbers of a row, the text
 * that is counted, and the numbers of its table is C, and not proved. */
enum seatlaw_status seatlaw_counts(struct seatlaw_text book, const struct seatlaw_template *returns, const uint32_t *numbers, size_t rows,
                                   int32_t *seats, size_t seats_width, uint8_t *statuses);

#ifdef __cplusplus
}
#endif

#endif
