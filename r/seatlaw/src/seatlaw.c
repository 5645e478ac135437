// The calls of the C library for R: `ask` hands over words and files, and `counts` counts returns that differ in numbers.
#include <R.h>
#include <Rinternals.h>
#include <R_ext/Rdynload.h>
#include <string.h>
#include "seatlaw.h"

static struct seatlaw_text word_of(SEXP word) { return seatlaw_string(Rf_translateCharUTF8(word)); }

static struct seatlaw_text bytes_of(SEXP bytes) {
    struct seatlaw_text text = {(const char *)RAW(bytes), (size_t)XLENGTH(bytes)};
    return text;
}

// A list of the status and of raw vectors of the three texts. R may cut off its making: the reply is given back all the same.
static SEXP list_of(void *data) {
    const struct seatlaw_reply *reply = data;
    const struct seatlaw_text texts[] = {reply->out, reply->err, reply->made};
    SEXP result = PROTECT(Rf_allocVector(VECSXP, 4));
    SET_VECTOR_ELT(result, 0, Rf_ScalarInteger((int)reply->status));
    for (int i = 0; i < 3; i++) {
        SET_VECTOR_ELT(result, i + 1, Rf_allocVector(RAWSXP, (R_xlen_t)texts[i].length));
        if (texts[i].length) memcpy(RAW(VECTOR_ELT(result, i + 1)), texts[i].bytes, texts[i].length);
    }
    UNPROTECT(1);
    return result;
}

static void give_back(void *data, Rboolean jump) {
    (void)jump;
    seatlaw_free(data);
}

// The reply to words, and to files, raw vectors, of these names.
static SEXP ask(SEXP words, SEXP names, SEXP files) {
    size_t words_length = (size_t)XLENGTH(words), files_length = (size_t)XLENGTH(files);
    struct seatlaw_text *asked = (struct seatlaw_text *)R_alloc(words_length + 1, sizeof *asked);
    struct seatlaw_file *handed = (struct seatlaw_file *)R_alloc(files_length + 1, sizeof *handed);
    for (size_t i = 0; i < words_length; i++) asked[i] = word_of(STRING_ELT(words, (R_xlen_t)i));
    for (size_t i = 0; i < files_length; i++) {
        handed[i].name = word_of(STRING_ELT(names, (R_xlen_t)i));
        handed[i].bytes = bytes_of(VECTOR_ELT(files, (R_xlen_t)i));
    }
    struct seatlaw_reply reply;
    SEXP token = PROTECT(R_MakeUnwindCont());
    seatlaw_ask(asked, words_length, handed, files_length, &reply);
    SEXP result = R_UnwindProtect(list_of, &reply, give_back, &reply, token);
    UNPROTECT(1);
    return result;
}

// Numbers that are whole and from 0 to 2^32 - 1, in memory that R takes back after the call.
static uint32_t *whole(SEXP numbers) {
    uint32_t *made = (uint32_t *)R_alloc((size_t)XLENGTH(numbers) + 1, sizeof *made);
    for (R_xlen_t i = 0; i < XLENGTH(numbers); i++) made[i] = (uint32_t)REAL(numbers)[i];
    return made;
}

static size_t *places_of(SEXP places) {
    size_t *made = (size_t *)R_alloc((size_t)XLENGTH(places) + 1, sizeof *made);
    for (R_xlen_t i = 0; i < XLENGTH(places); i++) made[i] = (size_t)REAL(places)[i];
    return made;
}

// Counts rows of numbers, which stand one after the other; `shape` has how many rows there are, how many numbers a row has, and how many numbers a
// row of seats. Gives a list of the statuses and the seats.
static SEXP counts(SEXP book, SEXP text, SEXP places, SEXP columns, SEXP numbers, SEXP shape) {
    size_t rows = (size_t)REAL(shape)[0], width = (size_t)REAL(shape)[2];
    struct seatlaw_template returns = {
        (const char *)RAW(text), (size_t)XLENGTH(text), places_of(places), whole(columns), (size_t)XLENGTH(places), (size_t)REAL(shape)[1]};
    SEXP result = PROTECT(Rf_allocVector(VECSXP, 2));
    SET_VECTOR_ELT(result, 0, Rf_allocVector(RAWSXP, (R_xlen_t)rows));
    SET_VECTOR_ELT(result, 1, Rf_allocVector(INTSXP, (R_xlen_t)(rows * width)));
    int status = seatlaw_counts(bytes_of(book), &returns, whole(numbers), rows, INTEGER(VECTOR_ELT(result, 1)), width, RAW(VECTOR_ELT(result, 0)));
    if (status != SEATLAW_DONE) Rf_error("there is no memory for the counts");
    UNPROTECT(1);
    return result;
}

static SEXP statutes(void) {
    return Rf_mkString(seatlaw_statutes());
}

static const R_CallMethodDef calls[] = {
    {"ask", (DL_FUNC)&ask, 3}, {"counts", (DL_FUNC)&counts, 6}, {"statutes", (DL_FUNC)&statutes, 0}, {NULL, NULL, 0}};

void R_init_seatlaw(DllInfo *library) {
    R_registerRoutines(library, NULL, calls, NULL, NULL);
    R_useDynamicSymbols(library, FALSE);
}
