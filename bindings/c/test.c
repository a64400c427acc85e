/* Calls every function of sovdringa.h from C: on the bundled example, on frames made here, on inputs that are refused, with space
 * one item short and with short answers. Use: test EXAMPLES-FOLDER. Ends with 'N passed, M failed'. */
#include "sovdringa.h"

#include <stdio.h>
#include <stdlib.h>
#include <string.h>

static int passed, failed;

static void expect(int holds, const char *what)
{
    if (holds) {
        passed++;
    } else {
        failed++;
        printf("FAILED: %s\n", what);
    }
}

/* ---- a call's slices */

/* In the order in which the entries take them. The first three are output, the last is the answer, the rest is scratch. */
enum {
    RECTS, REGIONS, WORDS, BOXES, BELOW, ITEMS, ITEM_BOXES, GLYPH_ITEMS, DRAFT_RECTS, WORK, SPARE, DRAFT_REGIONS,
    DRAFT_WORDS, ANSWER, SLICES
};

static const char *const names[SLICES] = {
    "rects", "regions", "words", "boxes", "below", "items", "item_boxes", "glyph_items", "draft_rects", "work", "spare",
    "draft_regions", "draft_words", "answer"
};

static const size_t item_size[SLICES] = {
    sizeof(double), sizeof(uint32_t), sizeof(uint32_t), sizeof(double), sizeof(uint64_t), sizeof(uint64_t), sizeof(double),
    sizeof(uint64_t), sizeof(double), sizeof(uint64_t), sizeof(uint64_t), sizeof(uint32_t), sizeof(uint32_t),
    sizeof(uint64_t)
};

/* Every byte of lent space before a call, and of the bytes behind each slice, which no call may write. */
enum { MARK = 0xa5, BEHIND = 64 };

struct space {
    size_t len[SLICES];
    unsigned char *at[SLICES];
};

static void lend(struct space *s, const size_t *len)
{
    for (int i = 0; i < SLICES; i++) {
        s->len[i] = len[i];
        s->at[i] = malloc(len[i] * item_size[i] + BEHIND);
        if (!s->at[i]) {
            puts("no memory");
            exit(2);
        }
        memset(s->at[i], MARK, len[i] * item_size[i] + BEHIND);
    }
}

static void give_back(struct space *s)
{
    for (int i = 0; i < SLICES; i++) free(s->at[i]);
}

static int all(const unsigned char *bytes, size_t n, unsigned char value)
{
    for (size_t i = 0; i < n; i++)
        if (bytes[i] != value) return 0;
    return 1;
}

/* Whether a slice is as it was from an item on, with what stands behind it. */
static int untouched(const struct space *s, int i, size_t from)
{
    return all(s->at[i] + from * item_size[i], (s->len[i] - from) * item_size[i] + BEHIND, MARK);
}

/* Whether scratch is all zeros, and what stands behind it as it was. */
static int cleared(const struct space *s)
{
    for (int i = BOXES; i <= DRAFT_WORDS; i++)
        if (!all(s->at[i], s->len[i] * item_size[i], 0) || !untouched(s, i, s->len[i])) return 0;
    return 1;
}

typedef uint32_t entry(
    const uint8_t *, size_t, double *, size_t, uint32_t *, size_t, uint32_t *, size_t, double *, size_t, uint64_t *, size_t,
    uint64_t *, size_t, double *, size_t, uint64_t *, size_t, double *, size_t, uint64_t *, size_t, uint64_t *, size_t,
    uint32_t *, size_t, uint32_t *, size_t, uint64_t *, size_t);

static uint32_t call(entry *plan, const uint8_t *input, size_t n, struct space *s)
{
#define F64(i) (double *)(void *)s->at[i], s->len[i]
#define U32(i) (uint32_t *)(void *)s->at[i], s->len[i]
#define U64(i) (uint64_t *)(void *)s->at[i], s->len[i]
    return plan(input, n, F64(RECTS), U32(REGIONS), U32(WORDS), F64(BOXES), U64(BELOW), U64(ITEMS), F64(ITEM_BOXES),
                U64(GLYPH_ITEMS), F64(DRAFT_RECTS), U64(WORK), U64(SPARE), U32(DRAFT_REGIONS), U32(DRAFT_WORDS),
                U64(ANSWER));
}

static uint64_t answer(const struct space *s, int i)
{
    uint64_t word;
    memcpy(&word, s->at[ANSWER] + (size_t)i * sizeof word, sizeof word);
    return word;
}

static uint32_t u32_at(const struct space *s, int slice, size_t i)
{
    uint32_t word;
    memcpy(&word, s->at[slice] + i * sizeof word, sizeof word);
    return word;
}

static double f64_at(const struct space *s, int slice, size_t i)
{
    double x;
    memcpy(&x, s->at[slice] + i * sizeof x, sizeof x);
    return x;
}

/* Space for so many of each, and for the whole answer. */
static void sizes(
    size_t *len, size_t commands, size_t glyphs, size_t clips, size_t rects, size_t regions, size_t words)
{
    len[RECTS] = len[DRAFT_RECTS] = 4 * rects;
    len[WORK] = len[SPARE] = rects;
    len[REGIONS] = len[DRAFT_REGIONS] = 4 * regions;
    len[WORDS] = len[DRAFT_WORDS] = words;
    len[BOXES] = 8 * clips;
    len[BELOW] = clips;
    len[ITEMS] = 2 * commands;
    len[ITEM_BOXES] = 4 * commands;
    len[GLYPH_ITEMS] = glyphs;
    len[ANSWER] = SOVDRINGA_ANSWER_WORDS;
}

/* What the plan program lends. */
static void ample(size_t *len)
{
    sizes(len, 1024, 2048, 2048, 2048, 4096, 16384);
}

/* What a refusal leaves: output as it was, scratch zero, number and position in front of five zeros. */
static void expect_refused(
    entry *plan, const uint8_t *input, size_t n, const size_t *len, uint32_t number, uint64_t position, const char *what)
{
    struct space s;
    lend(&s, len);
    uint32_t got = call(plan, input, n, &s);
    int words = got == number && answer(&s, SOVDRINGA_NUMBER) == number && answer(&s, SOVDRINGA_POSITION) == position;
    for (int i = SOVDRINGA_RECTANGLES; i < SOVDRINGA_ANSWER_WORDS; i++) words = words && answer(&s, i) == 0;
    if (!words) printf("%s: %u at %llu\n", what, (unsigned)got, (unsigned long long)answer(&s, SOVDRINGA_POSITION));
    expect(words && untouched(&s, ANSWER, SOVDRINGA_ANSWER_WORDS), what);
    expect(untouched(&s, RECTS, 0) && untouched(&s, REGIONS, 0) && untouched(&s, WORDS, 0), "refused: output as it was");
    expect(cleared(&s), "refused: scratch zero");
    give_back(&s);
}

/* An accepted call: nothing but its counts is written. */
static void expect_accepted(const struct space *s, uint32_t got, const char *what)
{
    if (got) printf("%s: refused %u at %llu\n", what, (unsigned)got, (unsigned long long)answer(s, SOVDRINGA_POSITION));
    expect(got == SOVDRINGA_ACCEPTED && answer(s, SOVDRINGA_NUMBER) == 0 && answer(s, SOVDRINGA_POSITION) == 0, what);
    if (got) return;
    expect(untouched(s, RECTS, 4 * answer(s, SOVDRINGA_RECTANGLES)), "rectangles past the count as they were");
    expect(untouched(s, REGIONS, 4 * answer(s, SOVDRINGA_REGIONS)), "regions past the count as they were");
    expect(untouched(s, WORDS, answer(s, SOVDRINGA_WORDS)), "index words past the count as they were");
    expect(untouched(s, ANSWER, SOVDRINGA_ANSWER_WORDS), "nothing written behind the answer");
    expect(cleared(s), "scratch zero");
}

/* ---- inputs made here */

struct bytes {
    uint8_t at[1024];
    size_t n;
};

static void put(struct bytes *b, uint64_t value, int bytes)
{
    for (int i = 0; i < bytes; i++) b->at[b->n++] = (uint8_t)(value >> (8 * i));
}

static void put_f64(struct bytes *b, double x)
{
    uint64_t bits;
    memcpy(&bits, &x, sizeof bits);
    put(b, bits, 8);
}

static void put_box(struct bytes *b, double x0, double y0, double x1, double y1)
{
    put_f64(b, x0);
    put_f64(b, y0);
    put_f64(b, x1);
    put_f64(b, y1);
}

/* The identity, moved. */
static void put_moved(struct bytes *b, double x, double y)
{
    put_f64(b, 1);
    put_f64(b, 0);
    put_f64(b, 0);
    put_f64(b, 1);
    put_f64(b, x);
    put_f64(b, y);
}

static void put_header(struct bytes *b, uint32_t width, uint32_t height, uint32_t band)
{
    put(b, width, 4);
    put(b, height, 4);
    put(b, band, 4);
}

static void put_fill(struct bytes *b, uint64_t path, double width, double height, double x, double y, uint64_t brush)
{
    put(b, 3, 1);
    put(b, path, 8);
    put_box(b, 0, 0, width, height);
    put_moved(b, x, y);
    put(b, brush, 8);
}

/* Document 01's example: a small box over a wide one. */
static void put_two_fills(struct bytes *b, double x)
{
    put_fill(b, 1, 4, 4, x, 14, 1);
    put_fill(b, 2, 40, 16, 0, 0, 2);
    put(b, 0, 1);
}

/* A strip with a clip, a box under it, and a run of one glyph. */
static void put_clip_and_run(struct bytes *b, double x)
{
    put(b, 1, 1);
    put_box(b, 0, 0, 30, 30);
    put_fill(b, 1, 4, 4, x, 14, 1);
    put(b, 2, 1);
    put(b, 5, 1);
    put(b, 7, 8);
    put(b, 0x41400000, 4);
    put_moved(b, 0, 0);
    put(b, 1, 8);
    put_box(b, 0, 0, 8, 8);
    put(b, 1, 2);
    put(b, 6, 1);
    put(b, 65, 4);
    put(b, 0, 4);
    put(b, 0, 4);
    put_box(b, 1, 1, 7, 7);
    put(b, 0, 1);
}

/* ---- tests */

static int is_region(const struct space *s, size_t i, uint32_t x, uint32_t y, uint32_t width, uint32_t height)
{
    return u32_at(s, REGIONS, 4 * i) == x && u32_at(s, REGIONS, 4 * i + 1) == y && u32_at(s, REGIONS, 4 * i + 2) == width
           && u32_at(s, REGIONS, 4 * i + 3) == height;
}

static int is_rect(const struct space *s, size_t i, double x0, double y0, double x1, double y1)
{
    return f64_at(s, RECTS, 4 * i) == x0 && f64_at(s, RECTS, 4 * i + 1) == y0 && f64_at(s, RECTS, 4 * i + 2) == x1
           && f64_at(s, RECTS, 4 * i + 3) == y1;
}

static int counts(const struct space *s, uint64_t rects, uint64_t regions, uint64_t words, uint64_t pixels, uint64_t commands)
{
    return answer(s, SOVDRINGA_RECTANGLES) == rects && answer(s, SOVDRINGA_REGIONS) == regions
           && answer(s, SOVDRINGA_WORDS) == words && answer(s, SOVDRINGA_PIXELS) == pixels
           && answer(s, SOVDRINGA_COMMANDS) == commands;
}

static const uint32_t *index_of(const struct space *s)
{
    return (const uint32_t *)(const void *)s->at[WORDS];
}

/* The row of a region, as the plan program prints it. */
static void print_row(const struct space *s, uint32_t width, uint32_t height, uint32_t band, uint32_t y, char *to, size_t room)
{
    uint64_t part[2] = {1, 2};
    uint32_t got =
        sovdringa_candidates(width, height, band, y, index_of(s), (size_t)answer(s, SOVDRINGA_WORDS), part, 2);
    size_t n = 0;
    to[0] = 0;
    expect(got == SOVDRINGA_ACCEPTED && part[0] <= part[1] && part[1] <= answer(s, SOVDRINGA_WORDS), "a region has its row");
    if (got) return;
    for (uint64_t i = part[0]; i < part[1] && n < room; i++)
        n += (size_t)snprintf(to + n, room - n, " %u", (unsigned)index_of(s)[i]);
}

static void first_and_next(void)
{
    struct bytes one = {{0}, 0}, two = {{0}, 0};
    struct space s;
    size_t len[SLICES];
    char row[64];

    put_header(&one, 40, 40, 16);
    put_two_fills(&one, 10.5);
    ample(len);
    lend(&s, len);
    expect_accepted(&s, call(sovdringa_plan_first, one.at, one.n, &s), "a first frame is accepted");
    expect(counts(&s, 1, 3, 7, 1600, 2), "a first frame: one rectangle, three bands");
    expect(is_rect(&s, 0, 0, 0, 40, 40), "a first frame: the whole screen");
    expect(is_region(&s, 0, 0, 0, 40, 16) && is_region(&s, 1, 0, 16, 40, 16) && is_region(&s, 2, 0, 32, 40, 8),
           "a first frame: the bands");
    give_back(&s);

    put_header(&two, 40, 40, 16);
    put_two_fills(&two, 10.5);
    put_two_fills(&two, 12.5);
    expect(two.n == 402, "document 01's example has 402 bytes");
    lend(&s, len);
    expect_accepted(&s, call(sovdringa_plan_next, two.at, two.n, &s), "document 01's example is accepted");
    expect(counts(&s, 1, 2, 7, 28, 2), "document 01's example: its counts");
    expect(is_rect(&s, 0, 10.5, 14, 16.5, 18), "document 01's example: its rectangle");
    expect(is_region(&s, 0, 10, 14, 7, 2) && is_region(&s, 1, 10, 16, 7, 2), "document 01's example: its regions");
    print_row(&s, 40, 40, 16, 14, row, sizeof row);
    expect(!strcmp(row, " 0 1"), "document 01's example: the first row");
    print_row(&s, 40, 40, 16, 16, row, sizeof row);
    expect(!strcmp(row, " 0"), "document 01's example: the second row");
    give_back(&s);

    /* each entry wants its own number of strips */
    expect_refused(sovdringa_plan_first, two.at, two.n, len, SOVDRINGA_BYTES_LEFT, one.n, "two strips for a first frame");
    expect_refused(sovdringa_plan_next, one.at, one.n, len, SOVDRINGA_TOO_SHORT, one.n, "one strip for a later frame");
}

static void refused_bytes(entry *plan)
{
    struct bytes b = {{0}, 0};
    size_t len[SLICES];
    ample(len);
    expect_refused(plan, b.at, 0, len, SOVDRINGA_TOO_SHORT, 0, "an empty input");
    put_header(&b, 40, 40, 16);
    expect_refused(plan, b.at, 11, len, SOVDRINGA_TOO_SHORT, 0, "eleven bytes");
    expect_refused(plan, b.at, 12, len, SOVDRINGA_TOO_SHORT, 12, "a header alone");
    b.n = 0;
    put_header(&b, 0, 40, 16);
    put(&b, 0, 2);
    expect_refused(plan, b.at, b.n, len, SOVDRINGA_BAD_SIZE, 0, "a width of 0");
    b.n = 0;
    put_header(&b, 40, 40, 32769);
    put(&b, 0, 2);
    expect_refused(plan, b.at, b.n, len, SOVDRINGA_BAD_SIZE, 0, "a band height of 32,769");
    b.n = 0;
    put_header(&b, 40, 40, 16);
    put(&b, 8, 1);
    expect_refused(plan, b.at, b.n, len, SOVDRINGA_BAD_CODE, 12, "a byte that is no command");
    b.at[12] = 2;
    expect_refused(plan, b.at, b.n, len, SOVDRINGA_NO_CLIP, 12, "POP with no clip open");
    b.at[12] = 6;
    expect_refused(plan, b.at, b.n, len, SOVDRINGA_GLYPHS_DUE, 12, "a glyph that no run announced");
    b.n = 12;
    put_fill(&b, 1, 1.0, 1e308 * 10, 0, 0, 1);
    expect_refused(plan, b.at, b.n, len, SOVDRINGA_BAD_FLOAT, 12, "an infinite edge");
    b.n = 12;
    put_fill(&b, 1, 1e308, 1, 1.7e308, 0, 1);
    expect_refused(plan, b.at, b.n, len, SOVDRINGA_BAD_BOX, 12, "a corner that is not finite");
}

/* Space for exactly what a frame has is enough; an item less of any slice is not. */
static void exact_space(void)
{
    struct bytes b = {{0}, 0};
    struct space s;
    size_t len[SLICES];
    put_header(&b, 40, 40, 16);
    put_clip_and_run(&b, 10.5);
    put_clip_and_run(&b, 12.5);
    ample(len);
    lend(&s, len);
    expect_accepted(&s, call(sovdringa_plan_next, b.at, b.n, &s), "clips and glyphs are accepted");
    uint64_t rects = answer(&s, SOVDRINGA_RECTANGLES), regions = answer(&s, SOVDRINGA_REGIONS);
    uint64_t words = answer(&s, SOVDRINGA_WORDS), pixels = answer(&s, SOVDRINGA_PIXELS);
    give_back(&s);
    expect(rects == 1 && regions == 2 && pixels == 28, "clips and glyphs: the counts");

    sizes(len, 4, 2, 2, rects, regions, words);
    lend(&s, len);
    expect_accepted(&s, call(sovdringa_plan_next, b.at, b.n, &s), "space that fits exactly is enough");
    expect(counts(&s, rects, regions, words, pixels, 2), "space that fits exactly: the same counts");
    give_back(&s);

    for (int i = 0; i < ANSWER; i++) {
        char what[64];
        len[i]--;
        snprintf(what, sizeof what, "one item less of %s", names[i]);
        expect_refused(sovdringa_plan_next, b.at, b.n, len, SOVDRINGA_NO_SPACE, 0, what);
        len[i]++;
    }
    for (int i = 0; i < ANSWER; i++) len[i] = 0;
    expect_refused(sovdringa_plan_next, b.at, b.n, len, SOVDRINGA_NO_SPACE, 0, "no space at all");
    expect_refused(sovdringa_plan_first, b.at, 0, len, SOVDRINGA_TOO_SHORT, 0, "no space and no bytes");
}

/* As many words of the answer as there is room for. */
static void short_answers(entry *plan, const struct bytes *b, const uint64_t *whole, const char *what)
{
    size_t len[SLICES];
    ample(len);
    for (size_t room = 0; room <= SOVDRINGA_ANSWER_WORDS + 2; room++) {
        struct space s;
        size_t n = room < SOVDRINGA_ANSWER_WORDS ? room : SOVDRINGA_ANSWER_WORDS;
        len[ANSWER] = room;
        lend(&s, len);
        uint32_t got = call(plan, b->at, b->n, &s);
        expect(got == whole[0] && !memcmp(s.at[ANSWER], whole, n * sizeof *whole) && untouched(&s, ANSWER, n), what);
        expect(cleared(&s), "scratch zero, whatever the room for an answer");
        give_back(&s);
    }
}

static void candidates(void)
{
    static const uint32_t words[7] = {0, 2, 3, 3, 0, 1, 0}; /* document 01's example */
    uint64_t part[4];
    for (size_t room = 0; room <= 3; room++) {
        memset(part, MARK, sizeof part);
        expect(sovdringa_candidates(40, 40, 16, 14, words, 7, part, room) == SOVDRINGA_ACCEPTED
                   && (room < 1 || part[0] == 4) && (room < 2 || part[1] == 6)
                   && all((unsigned char *)(part + (room < 2 ? room : 2)), sizeof part - 8 * (room < 2 ? room : 2), MARK),
               "a row, as much as fits");
        memset(part, MARK, sizeof part);
        expect(sovdringa_candidates(40, 40, 16, 48, words, 7, part, room) == SOVDRINGA_NO_ROW
                   && (room < 1 || part[0] == 0) && (room < 2 || part[1] == 0)
                   && all((unsigned char *)(part + (room < 2 ? room : 2)), sizeof part - 8 * (room < 2 ? room : 2), MARK),
               "no row, as much as fits");
    }
    expect(sovdringa_candidates(40, 40, 16, 39, words, 7, part, 2) == SOVDRINGA_ACCEPTED && part[0] == 7 && part[1] == 7,
           "an empty row");
    expect(sovdringa_candidates(0, 40, 16, 0, words, 7, part, 2) == SOVDRINGA_BAD_SIZE && part[0] == 0 && part[1] == 0,
           "candidates: a width of 0");
    expect(sovdringa_candidates(40, 32769, 16, 0, words, 7, part, 2) == SOVDRINGA_BAD_SIZE, "candidates: a height of 32,769");
    expect(sovdringa_candidates(40, 40, 0, 0, words, 7, part, 2) == SOVDRINGA_BAD_SIZE, "candidates: a band height of 0");
    expect(sovdringa_candidates(40, 40, 16, 0, words, 3, part, 2) == SOVDRINGA_NO_ROW, "candidates: the last start missing");
    expect(sovdringa_candidates(40, 40, 16, 16, words, 6, part, 2) == SOVDRINGA_NO_ROW, "candidates: an entry missing");
    expect(sovdringa_candidates(40, 40, 16, 0, words, 0, part, 2) == SOVDRINGA_NO_ROW, "candidates: no words");
}

/* ---- the bundled example beside what the plan program prints for it */

static unsigned char *read_file(const char *folder, const char *name, size_t *n)
{
    char path[4096];
    unsigned char *bytes = malloc(1 << 20);
    snprintf(path, sizeof path, "%s/%s", folder, name);
    FILE *f = fopen(path, "rb");
    if (!f || !bytes) {
        printf("%s cannot be read\n", path);
        exit(2);
    }
    *n = fread(bytes, 1, (1 << 20) - 1, f);
    bytes[*n] = 0;
    fclose(f);
    return bytes;
}

static uint32_t u32_of(const unsigned char *b)
{
    return (uint32_t)b[0] | (uint32_t)b[1] << 8 | (uint32_t)b[2] << 16 | (uint32_t)b[3] << 24;
}

static void example(const char *folder, const char *input_name, const char *plan_name)
{
    size_t n, printed, at = 0, room = 1 << 20, len[SLICES];
    unsigned char *input = read_file(folder, input_name, &n), *wanted = read_file(folder, plan_name, &printed);
    char *text = malloc(room);
    struct space s;
    ample(len);
    lend(&s, len);
    expect_accepted(&s, call(sovdringa_plan_next, input, n, &s), input_name);
    at += (size_t)snprintf(text + at, room - at, "dirty %llu\n", (unsigned long long)answer(&s, SOVDRINGA_RECTANGLES));
    for (size_t i = 0; i < answer(&s, SOVDRINGA_REGIONS); i++) {
        char row[4096];
        print_row(&s, u32_of(input), u32_of(input + 4), u32_of(input + 8), u32_at(&s, REGIONS, 4 * i + 1), row, sizeof row);
        at += (size_t)snprintf(text + at, room - at, "region %u %u %u %u draw%s\n", (unsigned)u32_at(&s, REGIONS, 4 * i),
                               (unsigned)u32_at(&s, REGIONS, 4 * i + 1), (unsigned)u32_at(&s, REGIONS, 4 * i + 2),
                               (unsigned)u32_at(&s, REGIONS, 4 * i + 3), row);
    }
    snprintf(text + at, room - at, "regions %llu pixels %llu\n", (unsigned long long)answer(&s, SOVDRINGA_REGIONS),
             (unsigned long long)answer(&s, SOVDRINGA_PIXELS));
    expect(!strcmp(text, (char *)wanted), plan_name);
    give_back(&s);

    /* one byte less, and one byte more */
    expect_refused(sovdringa_plan_next, input, n - 1, len, SOVDRINGA_TOO_SHORT, n - 1, "the last END missing");
    expect_refused(sovdringa_plan_next, input, n + 1, len, SOVDRINGA_BYTES_LEFT, n, "a byte after the last END");
    free(input);
    free(wanted);
    free(text);
}

int main(int argc, char **argv)
{
    static const uint64_t planned[] = {0, 0, 1, 2, 7, 28, 2}, turned_away[] = {SOVDRINGA_BAD_CODE, 12, 0, 0, 0, 0, 0};
    struct bytes good = {{0}, 0}, bad = {{0}, 0};
    if (argc != 2) {
        puts("use: test EXAMPLES-FOLDER");
        return 2;
    }
    put_header(&good, 40, 40, 16);
    put_two_fills(&good, 10.5);
    put_two_fills(&good, 12.5);
    put_header(&bad, 40, 40, 16);
    put(&bad, 8, 1);

    first_and_next();
    refused_bytes(sovdringa_plan_first);
    refused_bytes(sovdringa_plan_next);
    exact_space();
    short_answers(sovdringa_plan_next, &good, planned, "as much of a plan's answer as fits");
    short_answers(sovdringa_plan_next, &bad, turned_away, "as much of a refusal's answer as fits");
    short_answers(sovdringa_plan_first, &bad, turned_away, "as much of a first frame's refusal as fits");
    candidates();
    example(argv[1], "districts.bin", "districts.plan");
    example(argv[1], "empty-runs.bin", "empty-runs.plan");
    printf("%d passed, %d failed\n", passed, failed);
    return failed || !passed;
}
