/* The comparisons through the C interface: takes frames on standard input and prints what the library answers.
 *
 *     harness replay      whole sessions, each behind a line `bytes=N`: the print of the program, with room for the greatest cast
 *     harness edges       direct calls of the solver with any sides, settings and lengths
 *     harness many        direct calls of the solver of many sets; each set beside a single call
 *     harness reread      reader, writer and walks by themselves, then direct calls at the edges of lengths and ranges
 *     harness old         reader and writer of the old form, with any lengths
 *     harness onecycle    the cycle on many casts, each element of the result by its bits
 *     harness ticks       binary64 numbers as whole ticks
 *     harness layout      sizes and offsets of the interface's structs, as the compiler sees them and as a call fills them
 *
 * Everything lent stands in a heap block of its own, with a guard before and behind it, full of a pattern before the call; with
 * QUETZ_BREAK set to bytes, floats, words or guard the harness spoils after each solve what a library that clears one element less, or
 * writes one byte too far, would leave: every session must then be reported as `rooms=broken`. With
 * QUETZ_EXACT set a block has no guard and just the size of what is lent, so that valgrind sees the first byte beyond it. */
#include <inttypes.h>
#include <stdbool.h>
#include <stdio.h>
#include <stdlib.h>
#include <string.h>

#include "quetzalcup.h"

/* ---------------------------------------------------------------- what is exported for tests alone (crates/library_tests) */

typedef struct { uint32_t fits, depth, found, sealed; } test_walk;
typedef struct { uint32_t whole; int64_t value; } test_tick;

/* u from b by the cycle, run so many times, on a room that starts with u and b: 1; or 0 where sides, levels or lengths do not fit */
uint32_t quetz_test_cycle(quetz_sides sides, uint32_t levels, uint32_t times,
                          const uint8_t *labels, size_t labels_length, uint8_t *bytes, size_t bytes_length,
                          double *floats, size_t floats_length, uint32_t *words, size_t words_length);

/* depth, and the first sealed cell, of a cast whose sides and lengths fit; else all 0 */
test_walk quetz_test_walk(quetz_sides sides, const uint8_t *labels, size_t labels_length, uint32_t *words, size_t words_length);

/* the label part of a session that is read with room for so many values, copied to the front of the output; how long it is */
size_t quetz_test_labels(const uint8_t *session, size_t session_length, size_t room, uint8_t *output, size_t output_length);

/* the label part of an old session that is read with room for so many values, copied to the front of the output; how long it is */
size_t quetz_test_old_labels(quetz_settings settings, const uint8_t *session, size_t session_length, size_t room, uint8_t *output, size_t output_length);

/* the whole tick that a number rounds to */
test_tick quetz_test_tick(double x);

/* ---------------------------------------------------------------- what is lent */

enum { GUARD = 64, MOST_LENT = 16 };

typedef struct {
    uint8_t *block;
    size_t size, guard;
} lent_block;

static lent_block lent[MOST_LENT];
static int lent_count;
static bool exact;

static void out_of_memory(void) {
    fputs("harness: no memory\n", stderr);
    exit(2);
}

/* A block for so many bytes, guarded. */
static void *lend(size_t size) {
    size_t guard = exact ? 0 : GUARD;
    uint8_t *block = malloc(size + 2 * guard > 0 ? size + 2 * guard : 1);
    if (block == NULL || lent_count == MOST_LENT) {
        out_of_memory();
    }
    memset(block, 0xC3, guard);
    memset(block + guard + size, 0xC3, guard);
    lent[lent_count++] = (lent_block){block, size, guard};
    return block + guard;
}

/* Whether no guard was written to; all blocks are given back. */
static bool given_back(void) {
    bool kept = true;
    for (int k = 0; k < lent_count; k++) {
        for (size_t i = 0; i < lent[k].guard; i++) {
            kept = kept && lent[k].block[i] == 0xC3 && lent[k].block[lent[k].guard + lent[k].size + i] == 0xC3;
        }
        free(lent[k].block);
    }
    lent_count = 0;
    return kept;
}

/* Patterns that are no zero, no NaN and no tick within range, so that what was written shows. */
#define BYTE_PATTERN 165
#define FLOAT_PATTERN 7.25
#define WORD_PATTERN 2779096485u
#define PRESSURE_PATTERN INT64_C(-9876543210123)

typedef struct {
    int64_t *pressures;
    uint8_t *bytes;
    double *floats;
    uint32_t *words;
    size_t pressures_length, bytes_length, floats_length, words_length;
} rooms;

static rooms lend_rooms(size_t pressures, size_t bytes, size_t floats, size_t words) {
    rooms r = {lend(pressures * sizeof(int64_t)), lend(bytes), lend(floats * sizeof(double)), lend(words * sizeof(uint32_t)), pressures, bytes, floats, words};
    for (size_t i = 0; i < pressures; i++) {
        r.pressures[i] = PRESSURE_PATTERN;
    }
    memset(r.bytes, BYTE_PATTERN, bytes);
    for (size_t i = 0; i < floats; i++) {
        r.floats[i] = FLOAT_PATTERN;
    }
    for (size_t i = 0; i < words; i++) {
        r.words[i] = WORD_PATTERN;
    }
    return r;
}

static bool same_bits(double a, double b) {
    return memcmp(&a, &b, sizeof a) == 0;
}

/* Document 01: after answers 0, 7, 8 and 9 the needed part of each room is zeros and the rest as it was; after any other answer all of it is
 * as it was. The needs are written here from the document, and not asked of the library. */
static bool rooms_kept(quetz_answer a, size_t n, rooms r) {
    bool clears = a.number == 0 || (7 <= a.number && a.number <= 9);
    size_t bytes = clears ? 2 * n + 16 : 0, floats = clears ? 8 * n + 64 : 0, words = clears ? 2 * n : 0;
    if (r.bytes_length < bytes || r.floats_length < floats || r.words_length < words) {
        return false;
    }
    for (size_t i = 0; i < r.bytes_length; i++) {
        if (r.bytes[i] != (i < bytes ? 0 : BYTE_PATTERN)) {
            return false;
        }
    }
    for (size_t i = 0; i < r.floats_length; i++) {
        if (!same_bits(r.floats[i], i < floats ? 0.0 : FLOAT_PATTERN)) {
            return false;
        }
    }
    for (size_t i = 0; i < r.words_length; i++) {
        if (r.words[i] != (i < words ? 0 : WORD_PATTERN)) {
            return false;
        }
    }
    return true;
}

/* What a broken library would leave: the last element that should be zero still has its pattern, or a guard is overwritten. */
static void spoil(quetz_answer a, size_t n, rooms r) {
    const char *what = getenv("QUETZ_BREAK");
    if (what == NULL || !(a.number == 0 || (7 <= a.number && a.number <= 9))) {
        return;
    }
    if (strcmp(what, "bytes") == 0) {
        r.bytes[2 * n + 15] = BYTE_PATTERN;
    } else if (strcmp(what, "floats") == 0) {
        r.floats[8 * n + 63] = FLOAT_PATTERN;
    } else if (strcmp(what, "words") == 0) {
        r.words[2 * n - 1] = WORD_PATTERN;
    } else if (strcmp(what, "guard") == 0) {
        r.bytes[r.bytes_length] = 0;
    }
}

static void kept_line(bool kept) {
    bool guards = given_back();
    puts(kept && guards ? "rooms=kept" : "rooms=broken");
}

/* ---------------------------------------------------------------- lines and frames */

static void line(const char *key, uint64_t n) {
    printf("%s%" PRIu64 "\n", key, n);
}

static void answer_lines(quetz_answer a) {
    line("answer=", a.number);
    line("place=", a.place);
    line("rounds=", a.rounds);
    line("worst=", a.worst);
    line("worstcell=", a.worstcell);
    printf("worstvalue=%" PRId32 "\n", a.worstvalue);
    line("interior=", a.interior);
    line("depth=", a.depth);
}

static void bad_frame(void) {
    puts("frame=bad");
}

static bool read_exactly(void *to, size_t n) {
    return fread(to, 1, n, stdin) == n;
}

static uint32_t four_at(const uint8_t *raw) {
    return (uint32_t)raw[0] << 24 | (uint32_t)raw[1] << 16 | (uint32_t)raw[2] << 8 | raw[3];
}

/* A line `bytes=N` in at most 14 bytes, N of 1 to 7 digits without a leading zero; -1 at the end of the input, -2 where it is not of the form. */
static long frame_size(void) {
    char text[15];
    size_t n = 0;
    int c;
    while (n < 14 && (c = getchar()) != EOF) {
        text[n++] = (char)c;
        if (c == '\n') {
            break;
        }
    }
    if (n == 0) {
        return -1;
    }
    if (n < 8 || memcmp(text, "bytes=", 6) != 0 || text[n - 1] != '\n') {
        return -2;
    }
    long size = 0;
    for (size_t i = 6; i < n - 1; i++) {
        if (text[i] < '0' || text[i] > '9') {
            return -2;
        }
        size = 10 * size + (text[i] - '0');
    }
    return n - 7 > 1 && text[6] == '0' ? -2 : size;
}

/* ---------------------------------------------------------------- replay */

enum { MOST_CELLS = 32 * 32 * 32, LONGEST = 94 + 5 * MOST_CELLS };

/* Whether cell i has a pressure that the answer allows: the pattern still, unless it is 0. */
static bool pressure_kept(quetz_answer a, uint8_t label, int32_t value, int64_t p) {
    if (a.number != 0) {
        return p == PRESSURE_PATTERN;
    }
    if (label == 1) {
        return p == value;
    }
    return label == 2 ? p == 0 : -(INT64_C(1) << 41) <= p && p <= INT64_C(1) << 41;
}

static void replay_session(const uint8_t *session, size_t length) {
    uint8_t *bytes = lend(length);
    int32_t *values = lend(MOST_CELLS * sizeof(int32_t));
    memcpy(bytes, session, length);
    memset(values, 0, MOST_CELLS * sizeof(int32_t));
    quetz_session s = quetz_read(bytes, length, values, MOST_CELLS);
    size_t n = s.answer.number == 0 ? (size_t)s.sides.nx * s.sides.ny * s.sides.nz : 0;
    uint8_t *labels = lend(n);
    int32_t *own = lend(n * sizeof(int32_t));
    memcpy(labels, bytes + s.start, n);
    memcpy(own, values, n * sizeof(int32_t));
    rooms r = lend_rooms(n, 2 * n + 21, 8 * n + 67, 2 * n + 3);
    quetz_answer a = s.answer;
    if (a.number == 0) {
        a = quetz_solve((quetz_task){s.sides, s.settings}, labels, n, own, n, r.pressures, n, r.bytes, r.bytes_length, r.floats, r.floats_length, r.words, r.words_length);
    }
    answer_lines(a);
    spoil(a, n, r);
    bool kept = rooms_kept(a, n, r);
    for (size_t i = 0; i < n; i++) {
        kept = kept && pressure_kept(a, labels[i], own[i], r.pressures[i]);
        if (a.number == 0) {
            printf("cell=%" PRId64 "\n", r.pressures[i]);
        }
    }
    kept_line(kept);
}

static int replay(void) {
    uint8_t *session = malloc(LONGEST + 1);
    if (session == NULL) {
        out_of_memory();
    }
    for (uint64_t number = 0;; number++) {
        long size = frame_size();
        if (size == -1) {
            break;
        }
        size_t kept = size < 0 ? 0 : size <= LONGEST + 1 ? (size_t)size : LONGEST + 1;
        bool whole = size >= 0 && read_exactly(session, kept);
        for (long left = whole ? size - (long)kept : 0; left > 0 && whole; left--) {
            whole = getchar() != EOF;
        }
        if (!whole) {
            bad_frame();
            break;
        }
        line("session=", number);
        replay_session(session, kept);
    }
    free(session);
    return 0;
}

/* ---------------------------------------------------------------- edges */

enum { HEAD = 12 };

static const uint32_t MOST_OF[HEAD] = {0, 0, 0, 0, 0, 0, MOST_CELLS + 1, MOST_CELLS + 1, MOST_CELLS + 1, 2 * MOST_CELLS + 17, 8 * MOST_CELLS + 65, 2 * MOST_CELLS + 1};

static void direct_call(const uint32_t *head, const uint8_t *raw, size_t m) {
    size_t labels_length = head[6], values_length = head[7];
    uint8_t *labels = lend(labels_length);
    int32_t *values = lend(values_length * sizeof(int32_t));
    memcpy(labels, raw, labels_length);
    for (size_t i = 0; i < values_length; i++) {
        values[i] = (int32_t)four_at(raw + m + 4 * i);
    }
    rooms r = lend_rooms(head[8], head[9], head[10], head[11]);
    quetz_task task = {{head[0], head[1], head[2]}, {head[3], head[4], head[5]}};
    quetz_answer a = quetz_solve(task, labels, labels_length, values, values_length, r.pressures, r.pressures_length, r.bytes, r.bytes_length,
                                 r.floats, r.floats_length, r.words, r.words_length);
    answer_lines(a);
    for (size_t i = 0; i < r.pressures_length; i++) {
        printf("pressure=%" PRId64 "\n", r.pressures[i]);
    }
    kept_line(rooms_kept(a, labels_length, r));
}

/* A frame: twelve numbers of four bytes (sides, settings, and how many labels, values, pressures, bytes, binary64 and u32 are lent), then as many label
 * bytes as the greater of the counts of labels and values, and as many values of four bytes. Numbers have the most significant byte first. */
static int edges(void) {
    uint8_t *raw = malloc(5 * (MOST_CELLS + 1));
    if (raw == NULL) {
        out_of_memory();
    }
    for (uint64_t number = 0;; number++) {
        uint8_t bytes[4 * HEAD];
        uint32_t head[HEAD];
        size_t got = fread(bytes, 1, sizeof bytes, stdin);
        if (got == 0) {
            break;
        }
        bool fits = got == sizeof bytes;
        for (int k = 0; fits && k < HEAD; k++) {
            head[k] = four_at(bytes + 4 * k);
        }
        size_t m = fits ? (head[6] > head[7] ? head[6] : head[7]) : 0;
        fits = fits && m <= MOST_CELLS + 1 && read_exactly(raw, 5 * m);
        for (int k = 6; fits && k < HEAD; k++) {
            fits = head[k] <= MOST_OF[k];
        }
        if (!fits) {
            bad_frame();
            break;
        }
        line("call=", number);
        direct_call(head, raw, m);
    }
    free(raw);
    return 0;
}

/* ---------------------------------------------------------------- many */

enum { MANY_HEAD = 14, FIELDS = 8, MOST_SET_CELLS = 65 * MOST_CELLS + 1 };

#define ANSWER_PATTERN INT64_C(-4567890123456)

static const uint32_t MOST_OF_MANY[MANY_HEAD] = {0, 0, 0, 0, 0, 0, 0, MOST_CELLS + 1, MOST_SET_CELLS, MOST_SET_CELLS, 1000, 2 * MOST_CELLS + 17, 8 * MOST_CELLS + 65, 2 * MOST_CELLS + 1};

/* Whether the set has the very answer and pressures of a single call, in rooms of its own. */
static bool single_agrees(quetz_task task, const uint8_t *labels, const int32_t *values, size_t n, const int64_t *pressures, const int64_t *fields) {
    size_t bytes = 2 * n + 16, floats = 8 * n + 64, words = 2 * n;
    rooms r = {malloc(n * sizeof(int64_t)), calloc(bytes, 1), calloc(floats, sizeof(double)), calloc(words, sizeof(uint32_t)), n, bytes, floats, words};
    if (r.pressures == NULL || r.bytes == NULL || r.floats == NULL || r.words == NULL) {
        out_of_memory();
    }
    for (size_t i = 0; i < n; i++) {
        r.pressures[i] = PRESSURE_PATTERN;
    }
    quetz_answer a = quetz_solve(task, labels, n, values, n, r.pressures, n, r.bytes, bytes, r.floats, floats, r.words, words);
    const int64_t own[FIELDS] = {a.number, a.place, a.rounds, a.worst, a.worstcell, a.worstvalue, a.interior, a.depth};
    bool agrees = memcmp(own, fields, sizeof own) == 0 && memcmp(r.pressures, pressures, n * sizeof(int64_t)) == 0;
    free(r.pressures);
    free(r.bytes);
    free(r.floats);
    free(r.words);
    return agrees;
}

static void many_call(const uint32_t *head, const uint8_t *raw) {
    size_t n = head[7], values_length = head[8], answers_length = head[10];
    uint8_t *labels = lend(n);
    int32_t *values = lend(values_length * sizeof(int32_t));
    int64_t *answers = lend(answers_length * sizeof(int64_t));
    memcpy(labels, raw, n);
    for (size_t i = 0; i < values_length; i++) {
        values[i] = (int32_t)four_at(raw + n + 4 * i);
    }
    for (size_t i = 0; i < answers_length; i++) {
        answers[i] = ANSWER_PATTERN;
    }
    rooms r = lend_rooms(head[9], head[11], head[12], head[13]);
    quetz_task task = {{head[0], head[1], head[2]}, {head[3], head[4], head[5]}};
    quetz_answer a = quetz_solve_many(task, head[6], labels, n, values, values_length, r.pressures, r.pressures_length, answers, answers_length,
                                      r.bytes, r.bytes_length, r.floats, r.floats_length, r.words, r.words_length);
    answer_lines(a);
    for (size_t i = 0; i < answers_length; i++) {
        printf("field=%" PRId64 "\n", answers[i]);
    }
    for (size_t i = 0; i < r.pressures_length; i++) {
        printf("pressure=%" PRId64 "\n", r.pressures[i]);
    }
    if (a.number == 0) {
        bool agree = true;
        for (uint32_t s = 0; s < head[6]; s++) {
            agree = agree && single_agrees(task, labels, values + s * n, n, r.pressures + s * n, answers + s * FIELDS);
        }
        puts(agree ? "singles=agree" : "singles=differ");
    }
    kept_line(rooms_kept(a, n, r));
}

/* A frame: fourteen numbers of four bytes (sides, settings, the number of sets, and how many labels, values, pressures, answers, bytes, binary64 and
 * u32 are lent), then the labels, then the values of four bytes, most significant first. */
static int many(void) {
    uint8_t bytes[4 * MANY_HEAD], *raw = malloc(MOST_CELLS + 1 + 4 * (size_t)MOST_SET_CELLS);
    uint32_t head[MANY_HEAD];
    if (raw == NULL) {
        out_of_memory();
    }
    for (uint64_t number = 0;; number++) {
        size_t got = fread(bytes, 1, sizeof bytes, stdin);
        if (got == 0) {
            break;
        }
        bool fits = got == sizeof bytes;
        for (int k = 0; fits && k < MANY_HEAD; k++) {
            head[k] = four_at(bytes + 4 * k);
        }
        for (int k = 7; fits && k < MANY_HEAD; k++) {
            fits = head[k] <= MOST_OF_MANY[k];
        }
        fits = fits && read_exactly(raw, head[7] + 4 * (size_t)head[8]);
        if (!fits) {
            bad_frame();
            break;
        }
        line("call=", number);
        many_call(head, raw);
    }
    free(raw);
    return 0;
}

/* ---------------------------------------------------------------- reread */

static void hex_line(const char *key, const uint8_t *bytes, size_t count) {
    fputs(key, stdout);
    for (size_t i = 0; i < count; i++) {
        printf("%02x", bytes[i]);
    }
    puts("");
}

static void short_answer(quetz_answer a) {
    line("answer=", a.number);
    line("place=", a.place);
}

static void written_line(const char *key, quetz_session s, uint32_t order, const uint8_t *labels, const int32_t *values, size_t n) {
    size_t room = 94 + 5 * n;
    uint8_t *output = lend(room);
    quetz_written w = quetz_write((quetz_task){s.sides, s.settings}, order, labels, n, values, n, output, room);
    hex_line(key, output, w.count);
}

static void reread_session(const uint8_t *session, size_t length) {
    uint8_t *bytes = lend(length);
    int32_t *values = lend(MOST_CELLS * sizeof(int32_t));
    memcpy(bytes, session, length);
    quetz_session s = quetz_read(bytes, length, values, MOST_CELLS);
    size_t n = s.answer.number == 0 ? (size_t)s.sides.nx * s.sides.ny * s.sides.nz : 0;
    const uint8_t *labels = bytes + s.start;
    uint8_t *part = lend(length);
    size_t found = quetz_test_labels(bytes, length, MOST_CELLS, part, length);
    short_answer(s.answer);
    line("nx=", s.sides.nx);
    line("ny=", s.sides.ny);
    line("nz=", s.sides.nz);
    puts(s.order == 0 ? "order=big" : "order=little");
    line("tolerance=", s.settings.tolerance);
    line("levels=", s.settings.levels);
    line("rounds=", s.settings.rounds);
    line("labels=", found);
    if (s.answer.number == 0) {
        for (size_t i = 0; i < found; i++) {
            line("label=", part[i]);
        }
        for (size_t i = 0; i < n; i++) {
            printf("value=%" PRId32 "\n", values[i]);
        }
        written_line("big=", s, 0, labels, values, n);
        written_line("little=", s, 1, labels, values, n);
        uint32_t *words = lend(2 * n * sizeof(uint32_t));
        test_walk w = quetz_test_walk(s.sides, labels, n, words, 2 * n);
        line(w.found ? "sealed=" : "depth=", w.found ? w.sealed : w.depth);
    }
    if (!given_back()) {
        puts("guards=broken");
    }
}

/* Direct calls of the writer on a line of cells: nx, tolerance, the counts of labels, values and output, label and value of cell 1, the order. */
static const struct { uint32_t nx, tolerance, labels, values, output; uint8_t label; int32_t value; uint32_t order; } CALLS[] = {
    {3, 4, 3, 3, 70, 0, 0, 0},       {3, 4, 3, 3, 69, 0, 0, 0},  {3, 4, 3, 3, 90, 0, 0, 0},       {3, 4, 3, 3, 73, 0, 0, 1},    {3, 4, 3, 3, 72, 0, 0, 1},
    {0, 4, 3, 3, 90, 0, 0, 0},       {33, 4, 3, 3, 90, 0, 0, 0}, {3, 1000001, 3, 3, 90, 0, 0, 0}, {3, 4, 2, 3, 90, 0, 0, 0},    {3, 4, 4, 3, 90, 0, 0, 0},
    {3, 4, 3, 2, 90, 0, 0, 0},       {3, 4, 3, 4, 90, 0, 0, 0},  {3, 4, 3, 3, 90, 7, 0, 0},       {3, 4, 3, 3, 90, 0, 1001, 0}, {3, 4, 3, 3, 90, 7, 1001, 0},
    {0, 1000001, 3, 3, 90, 0, 0, 0}, {3, 1000001, 2, 3, 90, 0, 0, 0}, {3, 4, 3, 3, 10, 7, 0, 0},  {3, 4, 3, 3, 0, 0, 0, 0},     {4, 4, 3, 3, 90, 0, 0, 0},
    {2, 4, 3, 3, 90, 0, 0, 0},       {3, 4, 3, 3, 90, 2, 1, 0},  {3, 4, 3, 3, 90, 1, 1000001, 0}, {3, 4, 0, 0, 90, 0, 0, 0},
};

static void call_writer(size_t k) {
    line("writer=", k);
    uint8_t cells[4] = {1, CALLS[k].label, 1, 2};
    int32_t ticks[4] = {10, CALLS[k].value, 20, 0};
    uint8_t *labels = lend(CALLS[k].labels);
    int32_t *values = lend(CALLS[k].values * sizeof(int32_t));
    uint8_t *output = lend(CALLS[k].output);
    memcpy(labels, cells, CALLS[k].labels);
    memcpy(values, ticks, CALLS[k].values * sizeof(int32_t));
    memset(output, 9, CALLS[k].output);
    quetz_task task = {{CALLS[k].nx, 1, 1}, {CALLS[k].tolerance, 1, 5}};
    quetz_written w = quetz_write(task, CALLS[k].order, labels, CALLS[k].labels, values, CALLS[k].values, output, CALLS[k].output);
    short_answer(w.answer);
    line("count=", w.count);
    hex_line("output=", output, CALLS[k].output);
    if (!given_back()) {
        puts("guards=broken");
    }
}

/* The reader on a session of three cells, with so many values lent, each 7 before. */
static void call_reader(size_t count) {
    static const char text[] = "nx=3\nny=1\nnz=1\norder=big\ntolerance=4\nlevels=1\nrounds=5\n\x01\x00\x01\x00\x00\x00\x0a\x00\x00\x00\x00\x00\x00\x00\x14";
    line("reader=", count);
    uint8_t *session = lend(sizeof text - 1);
    int32_t *values = lend(count * sizeof(int32_t));
    memcpy(session, text, sizeof text - 1);
    for (size_t i = 0; i < count; i++) {
        values[i] = 7;
    }
    short_answer(quetz_read(session, sizeof text - 1, values, count).answer);
    for (size_t i = 0; i < count; i++) {
        printf("value=%" PRId32 "\n", values[i]);
    }
    if (!given_back()) {
        puts("guards=broken");
    }
}

/* Sessions, each behind four bytes of length, the most significant first; then the direct calls. */
static int reread(void) {
    uint8_t *session = malloc(LONGEST + 2);
    if (session == NULL) {
        out_of_memory();
    }
    for (uint64_t number = 0;; number++) {
        uint8_t four[4];
        if (!read_exactly(four, 4) || four_at(four) > LONGEST + 2 || !read_exactly(session, four_at(four))) {
            break;
        }
        line("session=", number);
        reread_session(session, four_at(four));
    }
    free(session);
    for (size_t k = 0; k < sizeof CALLS / sizeof CALLS[0]; k++) {
        call_writer(k);
    }
    for (size_t count = 0; count < 6; count++) {
        call_reader(count);
    }
    return 0;
}

/* ---------------------------------------------------------------- old */

static void value_line(const char *key, const int32_t *values, size_t count) {
    fputs(key, stdout);
    for (size_t i = 0; i < count; i++) {
        printf("%08" PRIx32, (uint32_t)values[i]);
    }
    puts("");
}

/* R, then tolerance, levels, rounds and how many values are lent, each 7 before; then the session. */
static void old_reader(const uint8_t *raw, size_t length) {
    size_t room = four_at(raw + 13), size = length - 17;
    uint8_t *session = lend(size), *labels = lend(size);
    int32_t *values = lend(room * sizeof(int32_t));
    quetz_settings settings = {four_at(raw + 1), four_at(raw + 5), four_at(raw + 9)};
    memcpy(session, raw + 17, size);
    for (size_t i = 0; i < room; i++) {
        values[i] = 7;
    }
    quetz_old_session s = quetz_old_read(settings, session, size, values, room);
    size_t found = quetz_test_old_labels(settings, session, size, room, labels, size);
    short_answer(s.answer);
    line("nx=", s.sides.nx);
    line("ny=", s.sides.ny);
    line("nz=", s.sides.nz);
    line("unit=", s.unit);
    line("start=", s.start);
    hex_line("labels=", labels, found);
    value_line("values=", values, room);
}

/* W, then the sides, the unit, how many labels, values and output bytes, each 9 before, are lent; then the labels and the values. */
static void old_writer(const uint8_t *raw, size_t length) {
    size_t labels_length = four_at(raw + 17), count = four_at(raw + 21), room = four_at(raw + 25);
    uint8_t *labels = lend(labels_length), *output = lend(room);
    int32_t *values = lend(count * sizeof(int32_t));
    memcpy(labels, raw + 29, labels_length);
    for (size_t i = 0; i < count; i++) {
        size_t at = 29 + labels_length + 4 * i;
        values[i] = at + 4 <= length ? (int32_t)four_at(raw + at) : 0;
    }
    memset(output, 9, room);
    quetz_sides sides = {four_at(raw + 1), four_at(raw + 5), four_at(raw + 9)};
    quetz_written w = quetz_old_write(sides, four_at(raw + 13), labels, labels_length, values, count, output, room);
    short_answer(w.answer);
    line("count=", w.count);
    hex_line("output=", output, room);
}

/* Frames as replay's. A frame that is too short for what it says ends the run. */
static int old(void) {
    uint8_t *raw = malloc(LONGEST);
    if (raw == NULL) {
        out_of_memory();
    }
    for (uint64_t number = 0;; number++) {
        long size = frame_size();
        if (size < 17 || size > LONGEST || !read_exactly(raw, (size_t)size)) {
            break;
        }
        bool reads = raw[0] == 'R';
        if (reads ? four_at(raw + 13) > MOST_CELLS : size < 29 || four_at(raw + 17) > MOST_CELLS || four_at(raw + 21) > MOST_CELLS || four_at(raw + 25) > LONGEST
                                                         || 29 + (long)four_at(raw + 17) > size) {
            bad_frame();
            break;
        }
        line("call=", number);
        (reads ? old_reader : old_writer)(raw, (size_t)size);
        if (!given_back()) {
            puts("guards=broken");
        }
    }
    free(raw);
    return 0;
}

/* ---------------------------------------------------------------- onecycle */

/* The cycle on one cast, so many times: each starts from u = 0 and leaves b, so that all give the same. */
static bool run_cycle(quetz_sides g, uint32_t levels, uint32_t times, const uint8_t *labels, const double *b, size_t n) {
    uint8_t *own = lend(n), *bytes = lend(2 * n + 16);
    double *floats = lend((8 * n + 64) * sizeof(double));
    uint32_t *words = lend((2 * n + 5) * sizeof(uint32_t));
    memcpy(own, labels, n);
    memset(bytes, BYTE_PATTERN, 2 * n + 16);
    for (size_t i = 0; i < 8 * n + 64; i++) {
        floats[i] = FLOAT_PATTERN;
    }
    for (size_t i = 0; i < 2 * n + 5; i++) {
        words[i] = WORD_PATTERN;
    }
    memcpy(floats + n, b, n * sizeof(double));
    bool ran = quetz_test_cycle(g, levels, times, own, n, bytes, 2 * n + 16, floats, 8 * n + 64, words, 2 * n + 5) == 1;
    for (size_t i = 0; i < n && ran; i++) {
        uint64_t bits;
        memcpy(&bits, floats + i, sizeof bits);
        if (floats[i] == floats[i]) {
            printf("%016" PRIx64 "\n", bits);
        } else {
            puts("nan");
        }
    }
    bool guards = given_back();
    if (ran && !guards) {
        puts("guards=broken");
    }
    return ran;
}

/* A frame: nx, ny, nz and the number of levels, a byte each; how often the cycle is run, two bytes; one label byte a cell; and b, the eight bytes
 * of a binary64 a cell. The most significant byte comes first. */
static int onecycle(void) {
    uint8_t *raw = malloc(9 * MOST_CELLS);
    double *b = malloc(MOST_CELLS * sizeof(double));
    if (raw == NULL || b == NULL) {
        out_of_memory();
    }
    for (;;) {
        uint8_t head[6];
        size_t got = fread(head, 1, sizeof head, stdin);
        if (got == 0) {
            break;
        }
        quetz_sides g = {head[0], head[1], head[2]};
        bool fits = got == sizeof head && 1 <= g.nx && g.nx <= 32 && 1 <= g.ny && g.ny <= 32 && 1 <= g.nz && g.nz <= 32 && 1 <= head[3] && head[3] <= 6;
        size_t n = fits ? (size_t)g.nx * g.ny * g.nz : 0;
        fits = fits && read_exactly(raw, 9 * n);
        for (size_t i = 0; fits && i < n; i++) {
            fits = raw[i] <= 2;
            uint64_t bits = (uint64_t)four_at(raw + n + 8 * i) << 32 | four_at(raw + n + 8 * i + 4);
            memcpy(b + i, &bits, sizeof bits);
        }
        if (!fits || !run_cycle(g, head[3], head[4] * 256u + head[5], raw, b, n)) {
            bad_frame();
            break;
        }
    }
    free(raw);
    free(b);
    return 0;
}

/* ---------------------------------------------------------------- ticks */

/* Eight bytes a number, the most significant first. */
static int ticks(void) {
    uint8_t raw[8];
    while (read_exactly(raw, sizeof raw)) {
        uint64_t bits = (uint64_t)four_at(raw) << 32 | four_at(raw + 4);
        double x;
        memcpy(&x, &bits, sizeof x);
        test_tick t = quetz_test_tick(x);
        if (t.whole) {
            printf("%" PRId64 "\n", t.value);
        } else {
            puts("none");
        }
    }
    return 0;
}

/* ---------------------------------------------------------------- layout */

#define PLACE(type, field) printf("%s.%s at %zu of %zu\n", #type, #field, offsetof(type, field), sizeof(((type *)0)->field))
#define SIZE(type) printf("%s has %zu\n", #type, sizeof(type))

/* Where the header puts each field; and calls whose fields all differ, so that a field at another place shows. */
static int layout(void) {
    SIZE(quetz_sides);
    PLACE(quetz_sides, nx);
    PLACE(quetz_sides, ny);
    PLACE(quetz_sides, nz);
    SIZE(quetz_settings);
    PLACE(quetz_settings, tolerance);
    PLACE(quetz_settings, levels);
    PLACE(quetz_settings, rounds);
    SIZE(quetz_task);
    PLACE(quetz_task, sides);
    PLACE(quetz_task, settings);
    SIZE(quetz_answer);
    PLACE(quetz_answer, number);
    PLACE(quetz_answer, place);
    PLACE(quetz_answer, rounds);
    PLACE(quetz_answer, worst);
    PLACE(quetz_answer, worstcell);
    PLACE(quetz_answer, worstvalue);
    PLACE(quetz_answer, interior);
    PLACE(quetz_answer, depth);
    SIZE(quetz_session);
    PLACE(quetz_session, answer);
    PLACE(quetz_session, sides);
    PLACE(quetz_session, order);
    PLACE(quetz_session, settings);
    PLACE(quetz_session, start);
    SIZE(quetz_old_session);
    PLACE(quetz_old_session, answer);
    PLACE(quetz_old_session, sides);
    PLACE(quetz_old_session, unit);
    PLACE(quetz_old_session, start);
    SIZE(quetz_written);
    PLACE(quetz_written, answer);
    PLACE(quetz_written, count);
    static const char text[] = "nx=2\nny=3\nnz=1\norder=little\ntolerance=4\nlevels=5\nrounds=6\n\x01\x00\x00\x00\x00\x00\0\0\0\0\0\0\0\0\0\0\0\0\0\0\0\0\0\0\0\0\0\0\0\0";
    int32_t values[6];
    quetz_session s = quetz_read((const uint8_t *)text, sizeof text - 1, values, 6);
    printf("read %u: sides %u %u %u, order %u, settings %u %u %u, start %zu\n", s.answer.number, s.sides.nx, s.sides.ny, s.sides.nz, s.order,
           s.settings.tolerance, s.settings.levels, s.settings.rounds, s.start);
    quetz_session bad = quetz_read((const uint8_t *)"nx=2\nny=x\n", 10, values, 6);
    printf("read %u, place %u\n", bad.answer.number, bad.answer.place);
    uint8_t output[100], labels[6] = {1, 0, 0, 0, 0, 0};
    quetz_written w = quetz_write((quetz_task){s.sides, s.settings}, 1, labels, 6, values, 6, output, sizeof output);
    printf("written %u, count %zu\n", w.answer.number, w.count);
    printf("needs %zu %zu %zu\n", quetz_byte_need(s.sides), quetz_float_need(s.sides), quetz_word_need(s.sides));
    int32_t sources[6] = {1000, -7, 3, 0, 5, 9};
    int64_t pressures[6];
    uint8_t bytes[28];
    double floats[112];
    uint32_t words[12];
    quetz_answer a = quetz_solve((quetz_task){{6, 1, 1}, {4, 5, 6}}, labels, 6, sources, 6, pressures, 6, bytes, sizeof bytes, floats, 112, words, 12);
    printf("solved %u, place %u, rounds %u, worst %u, worstcell %u, worstvalue %d, interior %u, depth %u\n", a.number, a.place, a.rounds, a.worst, a.worstcell,
           a.worstvalue, a.interior, a.depth);
    return 0;
}

int main(int count, char **words) {
    static const struct { const char *name; int (*run)(void); } RUNS[] = {{"replay", replay}, {"edges", edges}, {"many", many}, {"reread", reread}, {"old", old}, {"onecycle", onecycle}, {"ticks", ticks}, {"layout", layout}};
    exact = getenv("QUETZ_EXACT") != NULL;
    for (size_t k = 0; count == 2 && k < sizeof RUNS / sizeof RUNS[0]; k++) {
        if (strcmp(words[1], RUNS[k].name) == 0) {
            return RUNS[k].run();
        }
    }
    fputs("usage: harness replay | edges | many | reread | old | onecycle | ticks | layout\n", stderr);
    return 2;
}
