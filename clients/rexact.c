/* What exact.R calls by .Call: words in UTF-8, a file (its bytes, or a named list of its columns) and a room in bytes in;
   the status, the report and the line out. */
#include "exact.h"

#include <R.h>
#include <Rinternals.h>
#include <stdio.h>
#include <string.h>

/* What "%.15g" writes of a number has no more bytes, with the 0 behind it. */
enum { NUMBER = 24 };

/* The words, each with a byte 0 behind it; how many bytes. */
static size_t pack(SEXP words, char **packed) {
    size_t room = 0;
    for (R_xlen_t i = 0; i < XLENGTH(words); i++)
        room += (size_t)LENGTH(STRING_ELT(words, i)) + 1;
    char *at = *packed = R_alloc(room, 1);
    for (R_xlen_t i = 0; i < XLENGTH(words); i++) {
        SEXP word = STRING_ELT(words, i);
        memcpy(at, CHAR(word), (size_t)LENGTH(word) + 1);
        at += LENGTH(word) + 1;
    }
    return room;
}

/* How many bytes a field has, at most. As in paste, a column that is shorter than others begins again. */
static size_t width(SEXP column, R_xlen_t row) {
    if (XLENGTH(column) == 0)
        return 0;
    return Rf_isReal(column) ? NUMBER : (size_t)LENGTH(STRING_ELT(column, row % XLENGTH(column)));
}

/* Writes a field; where it ends. */
static char *write_field(char *at, SEXP column, R_xlen_t row) {
    if (XLENGTH(column) == 0)
        return at;
    if (Rf_isReal(column))
        return at + snprintf(at, NUMBER, "%.15g", REAL(column)[row % XLENGTH(column)]);
    SEXP text = STRING_ELT(column, row % XLENGTH(column));
    memcpy(at, CHAR(text), (size_t)LENGTH(text));
    return at + LENGTH(text);
}

/* The file of these columns, a header of their names and rows, each field between quotes; how many bytes. */
static size_t write_file(SEXP columns, char **file) {
    SEXP names = Rf_getAttrib(columns, R_NamesSymbol);
    R_xlen_t fields = XLENGTH(columns), rows = 0;
    for (R_xlen_t i = 0; i < fields; i++)
        if (rows < XLENGTH(VECTOR_ELT(columns, i)))
            rows = XLENGTH(VECTOR_ELT(columns, i));
    size_t room = 3 * ((size_t)rows + 1) * ((size_t)fields + 1);
    for (R_xlen_t i = 0; i < fields; i++) {
        room += width(names, i);
        for (R_xlen_t row = 0; row < rows; row++)
            room += width(VECTOR_ELT(columns, i), row);
    }
    char *at = *file = R_alloc(room, 1);
    for (R_xlen_t row = -1; row < rows; row++) {
        *at++ = '"';
        for (R_xlen_t i = 0; i < fields; i++) {
            if (i > 0) {
                memcpy(at, "\",\"", 3);
                at += 3;
            }
            at = row < 0 ? write_field(at, names, i) : write_field(at, VECTOR_ELT(columns, i), row);
        }
        *at++ = '"';
        *at++ = '\n';
    }
    return (size_t)(at - *file);
}

SEXP rexact_answer(SEXP words, SEXP file, SEXP room) {
    uint8_t here[16384], told[128], *out = here;
    char *packed, *bytes;
    size_t size = (size_t)Rf_asReal(room), words_length = pack(words, &packed), length;
    struct exact_counts counts = {0, 0};
    if (TYPEOF(file) == VECSXP) {
        length = write_file(file, &bytes);
    } else {
        bytes = (char *)RAW(file);
        length = (size_t)XLENGTH(file);
    }
    if (size <= sizeof here)
        size = sizeof here;
    else
        out = (uint8_t *)R_alloc(size, 1);
    int status = exact_answer((uint8_t *)packed, words_length, (uint8_t *)bytes, length, out, size, told, sizeof told,
                              &counts);
    const char *names[] = {"status", "report", "line", ""};
    SEXP answer = PROTECT(Rf_mkNamed(VECSXP, names));
    SET_VECTOR_ELT(answer, 0, Rf_ScalarInteger(status));
    SET_VECTOR_ELT(answer, 1, Rf_ScalarString(Rf_mkCharLenCE((const char *)out, (int)counts.written, CE_UTF8)));
    SET_VECTOR_ELT(answer, 2, Rf_ScalarString(Rf_mkCharLenCE((const char *)told, (int)counts.told, CE_UTF8)));
    UNPROTECT(1);
    return answer;
}
