// Writes the replies to the requests of a file: a line `STATUS LENGTH LENGTH LENGTH`, and the bytes of the three texts.
#include "cases.h"

static void write_text(struct seatlaw_text text) {
    if (text.bytes[text.length]) exit(8); // the byte behind the last one
    fwrite(text.bytes, 1, text.length, stdout);
}

int main(int count, char **words) {
    FILE *file = cases_of(count, words);
    struct one_case it;
    while (next_case(file, &it)) {
        struct seatlaw_reply reply;
        uint32_t status = asked(&it, &reply);
        printf("%u %zu %zu %zu\n", status, reply.out.length, reply.err.length, reply.made.length);
        write_text(reply.out), write_text(reply.err), write_text(reply.made);
        seatlaw_free(&reply);
        drop_case(&it);
    }
    return fclose(file);
}
