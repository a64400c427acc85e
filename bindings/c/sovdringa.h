/* Sovdringa for C and C++: a planner of changed regions for banded panels.
 *
 * A frame is a strip of drawing commands. The planner compares the last frame's strip with the new one and answers which
 * rectangles changed, which regions of the screen to paint anew, band by band, and which commands may touch each region.
 *
 * The library is libsovdringa.a, which bindings/library writes to target/staticlib (x86-64 Linux). It is compiled
 * from proved code (the compiler is covered by no proof, and nothing holds this header to the code but the tests beside
 * it): whatever the bytes and however little space is lent, a call ends, stays within the slices that it was given, and
 * leaves in them what is said below. It keeps nothing between calls, allocates nothing and reads and writes nothing but
 * its slices, so that threads may call it at once, each with slices of its own. From outside it needs memcpy and memset
 * alone.
 *
 * A slice is a pointer and a number of items (not of bytes). What a caller owes, which nothing checks:
 *   - a pointer is not null, also where the length is 0, and is aligned for its type;
 *   - so many items stand there, and nobody else uses them until the call returns;
 *   - no two slices of a call overlap.
 * Lent space may hold anything. */
#ifndef SOVDRINGA_H
#define SOVDRINGA_H

#include <stddef.h>
#include <stdint.h>

#ifdef __cplusplus
extern "C" {
#endif

/* What every function returns: 0, or why there is no plan (no row). Each has the position that is named here, counted
 * in bytes from the input's first; the command is the one concerned, by its first byte. */
enum sovdringa_number {
    /* There is a plan, or a row. Position 0. */
    SOVDRINGA_ACCEPTED = 0,
    /* Width, height or band height is 0 or above 32,768. Position 0. */
    SOVDRINGA_BAD_SIZE = 1,
    /* The bytes end too early: fewer than 12 (position 0), none where a command should stand (position: the input's
     * length), or fewer than the command has (position: the command). */
    SOVDRINGA_TOO_SHORT = 2,
    /* A byte that is no command, or a join or cap code above 2. Position: the command. */
    SOVDRINGA_BAD_CODE = 3,
    /* An operand is infinite or not a number. Position: the command. */
    SOVDRINGA_BAD_FLOAT = 4,
    /* A POP while no clip is open. Position: the command. */
    SOVDRINGA_NO_CLIP = 5,
    /* The 33rd open clip, or a frame's 4,097th clip, 4,097th drawing command or 16,385th glyph. Position: the command. */
    SOVDRINGA_OVER_LIMIT = 6,
    /* A GLYPH that no RUN announced, or another command while glyphs are due. Position: the command. */
    SOVDRINGA_GLYPHS_DUE = 7,
    /* A byte follows the new strip's END. Position: that byte. */
    SOVDRINGA_BYTES_LEFT = 8,
    /* A box's inflated edge or transformed corner is not finite. Position: the command. */
    SOVDRINGA_BAD_BOX = 9,
    /* Commands, glyphs, clips, rectangles, regions or index words exceed the space lent. Position 0. */
    SOVDRINGA_NO_SPACE = 10,
    /* From sovdringa_candidates alone: the region lies below the last band row, or the words are no index. Position 0. */
    SOVDRINGA_NO_ROW = 11
};

/* Where the words of `answer` stand. */
enum sovdringa_answer {
    SOVDRINGA_NUMBER = 0,     /* what the function returns */
    SOVDRINGA_POSITION = 1,   /* the byte concerned; 0 where there is a plan */
    SOVDRINGA_RECTANGLES = 2, /* rectangles that changed; from here on 0 after a refusal */
    SOVDRINGA_REGIONS = 3,    /* regions to paint anew */
    SOVDRINGA_WORDS = 4,      /* index words */
    SOVDRINGA_PIXELS = 5,     /* pixels of all regions: the sum of width times height */
    SOVDRINGA_COMMANDS = 6,   /* drawing commands of the new strip */
    SOVDRINGA_ANSWER_WORDS = 7
};

/* Plans a first frame: the input is a header (width, height and band height, 32 bits each, little-endian) and one strip.
 * Its one rectangle is the whole screen.
 *
 * Output. A plan is written to the front of each slice; what stands behind the plan stays as it was, and after a refusal all
 * of it does.
 *   rects          4 doubles a rectangle: x0, y0, x1, y1
 *   regions        4 words a region: x, y, width, height; in order of y, then x
 *   words          the band index, for sovdringa_candidates: a word for each band row and one more, then an entry for each
 *                  command in each row that it may touch
 *
 * Scratch. All zeros when a call returns, with a plan or without. Clips, commands and glyphs are counted over all strips of
 * the input (two, for sovdringa_plan_next).
 *   boxes          8 doubles a clip
 *   below          1 word a clip
 *   items          2 words a drawing command (FILL, STROKE, RUN, SCENE)
 *   item_boxes     4 doubles a drawing command
 *   glyph_items    1 word a glyph
 *   draft_rects    as many as rects: 4 doubles a rectangle
 *   work, spare    1 word a rectangle, each
 *   draft_regions  as many as regions: 4 words a region
 *   draft_words    as many as words
 * Where two slices for one thing differ (say items and item_boxes, or rects, draft_rects, work and spare), the one that
 * takes the fewest decides. A length that is no multiple lends what fits whole.
 *
 * The answer. As many of the words of enum sovdringa_answer as fit are written to the front of `answer`; behind them it stays
 * as it was. A length of 0 is fine: the number is also what the function returns. */
uint32_t sovdringa_plan_first(
    const uint8_t *input, size_t input_len,
    double *rects, size_t rects_len,
    uint32_t *regions, size_t regions_len,
    uint32_t *words, size_t words_len,
    double *boxes, size_t boxes_len,
    uint64_t *below, size_t below_len,
    uint64_t *items, size_t items_len,
    double *item_boxes, size_t item_boxes_len,
    uint64_t *glyph_items, size_t glyph_items_len,
    double *draft_rects, size_t draft_rects_len,
    uint64_t *work, size_t work_len,
    uint64_t *spare, size_t spare_len,
    uint32_t *draft_regions, size_t draft_regions_len,
    uint32_t *draft_words, size_t draft_words_len,
    uint64_t *answer, size_t answer_len);

/* Plans a frame after another: the input is the header, the strip that was accepted last, and the new strip. Everything
 * else is as for sovdringa_plan_first. */
uint32_t sovdringa_plan_next(
    const uint8_t *input, size_t input_len,
    double *rects, size_t rects_len,
    uint32_t *regions, size_t regions_len,
    uint32_t *words, size_t words_len,
    double *boxes, size_t boxes_len,
    uint64_t *below, size_t below_len,
    uint64_t *items, size_t items_len,
    double *item_boxes, size_t item_boxes_len,
    uint64_t *glyph_items, size_t glyph_items_len,
    double *draft_rects, size_t draft_rects_len,
    uint64_t *work, size_t work_len,
    uint64_t *spare, size_t spare_len,
    uint32_t *draft_regions, size_t draft_regions_len,
    uint32_t *draft_words, size_t draft_words_len,
    uint64_t *answer, size_t answer_len);

/* Finds the commands that may touch a region: those of the band row of its y, in the index words of a plan (`words`, at
 * least as many as the plan counts) under the same width, height and band height. Into `part` go, as far as they fit, the
 * places in `words` where the row's entries begin and where they end: words[part[0]] up to words[part[1] - 1] are the
 * places, from 0, of drawing commands in the new strip, in the order in which they paint. Returns 0, or 1 or 11, and then
 * both places are 0. For a region of the plan itself the answer is never a refusal. */
uint32_t sovdringa_candidates(
    uint32_t width, uint32_t height, uint32_t band_height, uint32_t y,
    const uint32_t *words, size_t words_len,
    uint64_t *part, size_t part_len);

#ifdef __cplusplus
}
#endif

#endif
