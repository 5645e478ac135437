// The calls of seatlaw.h over the one export of the proved library, which wants an address also of nothing.
#include "seatlaw.h"

#include <stdlib.h>

#define NOTHING ((struct seatlaw_text){"", 0})

// The export of crates/sl_page_calls.
void page_ask(const struct seatlaw_text *words, size_t words_length, const struct seatlaw_file *files, size_t files_length,
              struct seatlaw_reply *reply);

static struct seatlaw_text placed(struct seatlaw_text text) { return text.length ? text : NOTHING; }

enum seatlaw_status seatlaw_ask(const struct seatlaw_text *words, size_t words_length, const struct seatlaw_file *files, size_t files_length,
                                struct seatlaw_reply *reply) {
    struct seatlaw_text *asked = malloc((words_length + 1) * sizeof *asked);
    struct seatlaw_file *handed = malloc((files_length + 1) * sizeof *handed);
    *reply = (struct seatlaw_reply){SEATLAW_FAILED, NOTHING, NOTHING, NOTHING};
    if (asked && handed) {
        for (size_t i = 0; i < words_length; i++) asked[i] = placed(words[i]);
        for (size_t i = 0; i < files_length; i++) handed[i] = (struct seatlaw_file){placed(files[i].name), placed(files[i].bytes)};
        page_ask(asked, words_length, handed, files_length, reply);
    }
    free(asked);
    free(handed);
    return reply->status;
}

static void give_back(struct seatlaw_text *text) {
    if (text->length) free((void *)text->bytes);
    *text = NOTHING;
}

void seatlaw_free(struct seatlaw_reply *reply) {
    give_back(&reply->out);
    give_back(&reply->err);
    give_back(&reply->made);
}

// capi/build takes them from the table of the library.
const char *seatlaw_statutes(void) { return STATUTES; }
