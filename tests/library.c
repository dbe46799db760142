/* Tries the library from C; a line for each try: 0 where it came right, else 1, and what was tried. `library` builds it and
   runs it, each problem in a folder of its own: its words, a line each, its file, and what is wanted.
     problems FOLDER...   the answer of each, and rooms that do and do not suffice
     many FOLDER          a hundred thousand calls, and the memory that they keep
     threads FOLDER...    two threads, each with problems of its own
     refused FOLDER...    each request for memory is refused in turn; linked with --wrap
     without FOLDER       one call that wants more memory than there is, and one that does not */
#define _GNU_SOURCE
#include "exact.h"

#include <malloc.h>
#include <pthread.h>
#include <stdio.h>
#include <stdlib.h>
#include <string.h>
#include <time.h>
#include <unistd.h>

struct bytes {
    uint8_t *at;
    size_t length;
};

struct problem {
    const char *name;
    struct bytes words, file, wanted;
};

/* an answer, in places of exactly so many bytes */
struct answer {
    int status;
    struct bytes out, told;
    struct exact_counts counts;
};

enum { LINE = 96, UNTOUCHED = 0xa5 };

static const char SIX[] = "group,value\nx,1\nx,2\nx,3\ny,4\ny,5\ny,6\n";

static void tell(int right, const char *what, const char *name) {
    printf("%d C: %s: %s\n", right ? 0 : 1, what, name);
}

static struct bytes place(size_t length) {
    struct bytes made = {length > 0 ? malloc(length) : NULL, length};
    if (length > 0)
        memset(made.at, UNTOUCHED, length);
    return made;
}

static int is_untouched(struct bytes place, size_t from) {
    for (size_t i = from; i < place.length; i++)
        if (place.at[i] != UNTOUCHED)
            return 0;
    return 1;
}

/* the bytes of a file in a folder; none where there is no such file */
static struct bytes read_file(const char *folder, const char *name) {
    char path[4096];
    snprintf(path, sizeof path, "%s/%s", folder, name);
    FILE *file = fopen(path, "rb");
    struct bytes read = {NULL, 0};
    if (file == NULL)
        return read;
    fseek(file, 0, SEEK_END);
    read = place((size_t)ftell(file));
    rewind(file);
    if (fread(read.at, 1, read.length, file) != read.length)
        abort();
    fclose(file);
    return read;
}

static struct problem read_problem(const char *folder) {
    struct problem read = {folder, read_file(folder, "words"), {NULL, 0}, read_file(folder, "wanted")};
    for (size_t i = 0; i < read.words.length; i++)
        if (read.words.at[i] == '\n')
            read.words.at[i] = 0;
    /* the first of the words behind the first that is a file */
    for (size_t at = 0; at < read.words.length; at += strlen((char *)read.words.at + at) + 1)
        if (at > 0 && read.file.at == NULL)
            read.file = read_file(folder, (char *)read.words.at + at);
    return read;
}

static struct answer answer(const struct problem *asked, size_t room, size_t line_room) {
    struct answer came = {0, place(room), place(line_room), {0, 0}};
    came.status = exact_answer(asked->words.at, asked->words.length, asked->file.at, asked->file.length, came.out.at, room,
                               came.told.at, line_room, &came.counts);
    return came;
}

static void let_go(struct answer came) {
    free(came.out.at);
    free(came.told.at);
}

/* an answer in room that does */
static struct answer whole_answer(const struct problem *asked) {
    for (size_t room = 1 << 12;; room *= 16) {
        struct answer came = answer(asked, room, LINE);
        if (came.status != EXACT_NO_ROOM)
            return came;
        let_go(came);
    }
}

static int same(const uint8_t *bytes, size_t length, const char *text) {
    return length == strlen(text) && memcmp(bytes, text, length) == 0;
}

/* it is what the program wrote, and nothing else was written */
static int is_wanted(const struct problem *asked, const struct answer *came) {
    char behind[64], *text;
    size_t written = came->counts.written, told = came->counts.told;
    snprintf(behind, sizeof behind, "-- status %d\n", came->status);
    int length = asprintf(&text, "%.*s-- standard error\n%.*s%s", (int)written, (char *)came->out.at, (int)told,
                          (char *)came->told.at, behind);
    int right = (size_t)length == asked->wanted.length && memcmp(text, asked->wanted.at, asked->wanted.length) == 0;
    free(text);
    return right && is_untouched(came->out, written) && is_untouched(came->told, told);
}

/* the call has no room for its report */
static int is_without_room(const struct answer *came) {
    return came->status == EXACT_NO_ROOM && came->counts.written == 0 && is_untouched(came->out, 0) &&
           same(came->told.at, came->counts.told, "refused: write fault\n");
}

/* the same answer in another room and with another room for its line */
static int fits(const struct problem *asked, const struct answer *whole, size_t room, size_t line_room) {
    struct answer came = answer(asked, room, line_room);
    size_t told = whole->counts.told < line_room ? whole->counts.told : line_room;
    int right = came.status == whole->status && came.counts.written == whole->counts.written &&
                came.counts.told == told && is_untouched(came.out, came.counts.written) &&
                (room == 0 || memcmp(came.out.at, whole->out.at, came.counts.written) == 0) &&
                (told == 0 || memcmp(came.told.at, whole->told.at, told) == 0);
    let_go(came);
    return right;
}

static int is_refused_room(const struct problem *asked, size_t room) {
    struct answer came = answer(asked, room, LINE);
    int right = is_without_room(&came);
    let_go(came);
    return right;
}

static void try_problem(const struct problem *asked) {
    clock_t from = clock();
    struct answer whole = whole_answer(asked);
    tell(is_wanted(asked, &whole), "the answer of the program", asked->name);
    if (clock() - from < CLOCKS_PER_SEC / 100) {
        size_t written = whole.counts.written, told = whole.counts.told;
        int right = fits(asked, &whole, written, LINE) && fits(asked, &whole, written, told);
        for (size_t room = 0; room < told; room++)
            right = right && fits(asked, &whole, written, room);
        if (written > 0)
            right = right && is_refused_room(asked, written - 1) && is_refused_room(asked, 0);
        tell(right, "room that just does or does not", asked->name);
    }
    let_go(whole);
}

/* words that are refused as the command line, over a file that has a report */
static void try_no_words(const char *words, size_t length, const char *what) {
    struct problem asked = {"", {(uint8_t *)words, length}, {(uint8_t *)SIX, strlen(SIX)}, {NULL, 0}};
    struct answer came = answer(&asked, 1 << 12, LINE);
    tell(came.status == EXACT_USAGE && came.counts.written == 0 && is_untouched(came.out, 0) &&
             same(came.told.at, came.counts.told, "refused: command line\n"),
         what, "");
    let_go(came);
}

static int has(const struct answer *came, const char *text) {
    return memmem(came->out.at, came->counts.written, text, strlen(text)) != NULL;
}

/* words, a file and places of no bytes, and what no program is given */
static void try_edges(void) {
    struct problem asked = {"", {NULL, 0}, {NULL, 0}, {NULL, 0}};
    struct answer came = answer(&asked, 0, LINE);
    tell(came.status == EXACT_USAGE && same(came.told.at, came.counts.told, "refused: command line\n"), "no words", "");
    let_go(came);
    came = answer(&asked, 0, 0);
    tell(came.status == EXACT_USAGE && came.counts.told == 0, "nothing at all", "");
    let_go(came);
    asked.words = (struct bytes){(uint8_t *)"ranksum\0f.csv", 14};
    came = answer(&asked, 0, LINE);
    tell(came.status == EXACT_BAD_DATA && same(came.told.at, came.counts.told, "refused: row 1: no header\n"), "no file", "");
    let_go(came);
    asked.words = (struct bytes){(uint8_t *)"ranksum\0f.csv\0--tail=less", 26};
    asked.file = (struct bytes){(uint8_t *)SIX, strlen(SIX)};
    came = answer(&asked, 1 << 12, LINE);
    tell(came.status == EXACT_DONE && has(&came, "\nless ") && !has(&came, "\ngreater "), "each word is ended", "");
    let_go(came);
    try_no_words("ranksum\0f.csv\0--tail=less", 25, "an option that is not ended");
    try_no_words("ranksum\0f.csv", 13, "a file that is not ended");
    try_no_words("ranksum", 7, "one word that is not ended");
    try_no_words("ranksum\0\xff.csv", 14, "a word that is no text");
}

static int is_answered_always(const struct problem *asked, int calls) {
    int right = 1;
    for (int i = 0; i < calls; i++) {
        struct answer came = whole_answer(asked);
        right = right && is_wanted(asked, &came);
        let_go(came);
    }
    return right;
}

static long pages(void) {
    long all = 0, resident = 0;
    FILE *file = fopen("/proc/self/statm", "r");
    if (file == NULL || fscanf(file, "%ld %ld", &all, &resident) != 2)
        abort();
    fclose(file);
    return resident;
}

static void try_many(const struct problem *asked) {
    long before = pages();
    int right = is_answered_always(asked, 1000);
    size_t used = mallinfo2().uordblks;
    right = right && is_answered_always(asked, 100000);
    /* what the allocator keeps at hand counts as used: less than one byte a call */
    size_t now = mallinfo2().uordblks;
    tell(right, "a hundred thousand calls", asked->name);
    tell(now < used + 16384 && pages() < before + 512, "which keep no memory", asked->name);
}

struct share {
    char **folders;
    int number, right;
};

static void *answer_share(void *given) {
    struct share *share = given;
    for (int i = 0; i < share->number; i++) {
        struct problem asked = read_problem(share->folders[i]);
        share->right = share->right && is_answered_always(&asked, 20);
    }
    return NULL;
}

static void try_threads(char **folders, int number) {
    struct share shares[2] = {{folders, number / 2, 1}, {folders + number / 2, number - number / 2, 1}};
    pthread_t threads[2];
    for (int i = 0; i < 2; i++)
        if (pthread_create(&threads[i], NULL, answer_share, &shares[i]) != 0)
            abort();
    for (int i = 0; i < 2; i++)
        pthread_join(threads[i], NULL);
    tell(shares[0].right && shares[1].right, "two threads at once", "");
}

#ifdef REFUSES
/* From the request FIRST to the request LAST of a call memory is refused; what is not given back is counted. */
static unsigned long requests, first, last;
static long held;

void *__real_malloc(size_t size);
void *__real_realloc(void *old, size_t size);
void __real_free(void *old);

static int refuses(void) {
    requests++;
    return requests >= first && requests <= last;
}

void *__wrap_malloc(size_t size) {
    void *made = refuses() ? NULL : __real_malloc(size);
    held += made != NULL;
    return made;
}

void *__wrap_realloc(void *old, size_t size) {
    void *made = refuses() ? NULL : __real_realloc(old, size);
    held += old == NULL && made != NULL;
    return made;
}

void __wrap_free(void *old) {
    held -= old != NULL;
    __real_free(old);
}

/* the call ends as without the refusal, or with the status of no memory, and keeps nothing */
static int ends_well(const struct problem *asked, const struct answer *whole, unsigned long from, unsigned long to) {
    struct answer came = {0, whole->out, whole->told, {0, 0}};
    uint8_t out[1 << 12], told[LINE];
    if (whole->counts.written > sizeof out)
        return 1;
    memset(out, UNTOUCHED, sizeof out);
    long before = held;
    requests = 0;
    first = from;
    last = to;
    came.status = exact_answer(asked->words.at, asked->words.length, asked->file.at, asked->file.length, out, sizeof out, told,
                               sizeof told, &came.counts);
    first = last = 0;
    if (held != before)
        return 0;
    if (came.status != EXACT_NO_MEMORY)
        return came.status == whole->status && came.counts.written == whole->counts.written &&
               memcmp(out, whole->out.at, came.counts.written) == 0;
    return is_untouched((struct bytes){out, sizeof out}, 0) && same(told, came.counts.told, "refused: no memory\n");
}

static void try_refused(const struct problem *asked) {
    struct answer whole = whole_answer(asked);
    int right = 1;
    unsigned long number = 0;
    do {
        number++;
        right = ends_well(asked, &whole, number, number) && ends_well(asked, &whole, number, -1UL);
    } while (right && requests >= number);
    tell(right, "each request for memory refused", asked->name);
    let_go(whole);
}
#else
static void try_refused(const struct problem *asked) {
    (void)asked;
}
#endif

/* under `ulimit -v` */
static void try_without(const struct problem *asked) {
    struct answer came = answer(asked, 64, LINE);
    tell(came.status == EXACT_NO_MEMORY && is_untouched(came.out, 0) &&
             same(came.told.at, came.counts.told, "refused: no memory\n"),
         "want of memory", asked->name);
    let_go(came);
    struct problem help = {"", {(uint8_t *)"--help", 7}, {NULL, 0}, {NULL, 0}};
    came = whole_answer(&help);
    tell(came.status == EXACT_DONE && came.counts.written > 0, "and then another call", asked->name);
    let_go(came);
}

int main(int count, char **words) {
    if (count > 1 && strcmp(words[1], "problems") == 0)
        try_edges();
    for (int i = 2; i < count && strcmp(words[1], "threads") != 0; i++) {
        struct problem asked = read_problem(words[i]);
        if (strcmp(words[1], "problems") == 0)
            try_problem(&asked);
        if (strcmp(words[1], "many") == 0)
            try_many(&asked);
        if (strcmp(words[1], "refused") == 0)
            try_refused(&asked);
        if (strcmp(words[1], "without") == 0)
            try_without(&asked);
        free(asked.words.at);
        free(asked.file.at);
        free(asked.wanted.at);
    }
    if (count > 2 && strcmp(words[1], "threads") == 0)
        try_threads(words + 2, count - 2);
    return 0;
}
