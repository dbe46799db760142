/* exact.h: exact nonparametric tests in this process. One call is one run of the program `exact`, of words and of the bytes
   of a file: no file is opened, no process started, and no memory kept. Link libexact.a or libexact.so.

   The caller owes what the types cannot say, and nothing checks it:
   - `words` and `bytes` lead to as many bytes as their lengths say, which nobody writes during the call; they may overlap
     one another;
   - `out` and `told` lead to as many bytes as their lengths say, `counts` to a struct exact_counts, aligned as one is; no
     two of these overlap, nor one of them with `words` or `bytes`, and nobody else reads or writes them during the call;
   - `words`, `bytes`, `out` and `told` need no alignment, and may be null where their length is 0; `counts` is never null;
   - no length is greater than PTRDIFF_MAX;
   - malloc, realloc and free are of one allocator, and may be called in this thread;
   - the stack has 256 KiB left.
   Calls in several threads do not disturb one another. */
#ifndef EXACT_H
#define EXACT_H

#include <stddef.h>
#include <stdint.h>

/* What the library was made of; the file in the repository has no commit. */
#define EXACT_VERSION "0.1.0"
#define EXACT_COMMIT ""

#ifdef __cplusplus
extern "C" {
#endif

/* The statuses of the program. */
enum {
    EXACT_DONE = 0,
    EXACT_USAGE = 2,     /* the words are refused, or an option does not fit the data */
    EXACT_BAD_DATA = 3,  /* the data have a fault */
    EXACT_TOO_WIDE = 4,  /* more than 128 bits */
    EXACT_NO_ROOM = 6,   /* the report does not go into `out` */
    EXACT_NO_MEMORY = 7  /* memory ran out */
};

/* How many bytes a call wrote. */
struct exact_counts {
    size_t written; /* of the report, to the front of `out` */
    size_t told;    /* of the line that says why there is none, to the front of `told` */
};

/* Runs the command that the words name, over the bytes of the file that they name, whatever its name. The words are those
   of the command line after the program's own name, in UTF-8, each ended by a byte 0:

       "ranksum\0six.csv\0--tail=less\0"

   Where one of the words is not UTF-8, all of them are refused as the command line, with EXACT_USAGE. So are they where the
   last word is not ended by a byte 0.

   After EXACT_DONE the report is the first `counts->written` bytes of `out`, and all else there is as it was. After any
   other status `out` is as it was, and the first `counts->told` bytes of `told` are a line that says why there is no
   report, as far as it goes in: no line is longer than 96 bytes. EXACT_NO_ROOM comes only where the report has more bytes
   than `out`; nothing else is told of how many. */
uint8_t exact_answer(const uint8_t *words, size_t words_length, const uint8_t *bytes, size_t bytes_length, uint8_t *out,
                     size_t out_length, uint8_t *told, size_t told_length, struct exact_counts *counts);

#ifdef __cplusplus
}
#endif

#endif
