/* Lends every exported function every buffer one place short, once each: the answer has to be 7, and no place of any
 * buffer may change. With exactly the places that are needed it has to be done, and with more the rest has to stay as it
 * was: of what is lent as shades that is more than a byte may be, and must not be looked at. Then values that are refused
 * by 1 to 6, every wrong label box among them, and frames that are refused by 8 to 10: again no place may change. A box that
 * a call writes has to be what a search of the sheet finds, and the words of passes that stand behind as lines what is
 * written here. The role lines of a text have to be the sums, worked out here, for each pass under each role.
 * Argument: an accepted frame. */
#include <math.h>
#include <stdio.h>
#include <stdlib.h>
#include <string.h>

#include "projective_grid.h"

enum { MORE = 3, CORNERS = PROJECTIVE_GRID_CORNERS + 1 + MORE, TEXT = PROJECTIVE_GRID_LONGEST_TEXT };
enum { WORDS = PROJECTIVE_GRID_OUTCOME_WORDS, BOX = PROJECTIVE_GRID_BOX, UNTOUCHED = 0xa5 };
enum { KIND = PROJECTIVE_GRID_OUTCOME_KIND, ROLE = PROJECTIVE_GRID_OUTCOME_ROLE, LINES = PROJECTIVE_GRID_LINES };
enum { PASS_WORDS = PROJECTIVE_GRID_PASS_WORDS, PASSES = PROJECTIVE_GRID_PASSES };
enum { EMPTY = PROJECTIVE_GRID_BOX_EMPTY, LOW_I = PROJECTIVE_GRID_BOX_LOW_I, HIGH_I = PROJECTIVE_GRID_BOX_HIGH_I };
enum { LOW_J = PROJECTIVE_GRID_BOX_LOW_J, HIGH_J = PROJECTIVE_GRID_BOX_HIGH_J };

static uint8_t frame[PROJECTIVE_GRID_FRAME_BYTES + 1 + MORE];
static float xs[CORNERS], ys[CORNERS], pitches[CORNERS], settings[PROJECTIVE_GRID_SETTINGS + MORE];
static uint16_t sheet[PROJECTIVE_GRID_SHEET + MORE], queue[4 * CORNERS], attached[CORNERS];
static int32_t around[BOX + MORE];
static uint32_t passes[PASSES * PASS_WORDS + MORE], words[16 * WORDS + MORE], out[WORDS + MORE];
static uint8_t shades[CORNERS], text[TEXT + MORE];

/* A buffer as it is lent: where, its places and their size, how many of them are needed, and how it was before the call. */
struct lent {
    const char *name;
    void *start;
    size_t places, size, needed;
    void *before;
    int fixes_none; /* its length is no need: it says how many corners or bytes there are */
};

#define LENT(buffer, needed) { #buffer, buffer, sizeof buffer / sizeof buffer[0], sizeof buffer[0], needed, 0, 0 }
#define GIVEN(buffer, length) { #buffer, buffer, sizeof buffer / sizeof buffer[0], sizeof buffer[0], length, 0, 1 }

static unsigned checks, failures;

static void check(int fine, const char *call, const char *what, const char *buffer) {
    checks++;
    if (!fine && ++failures)
        printf("short: %s: %s (%s)\n", call, what, buffer);
}

static void keep(struct lent *b, size_t count) {
    for (size_t k = 0; k < count; k++)
        memcpy(b[k].before, b[k].start, b[k].places * b[k].size);
}

static void restore(struct lent *b, size_t count) {
    for (size_t k = 0; k < count; k++)
        memcpy(b[k].start, b[k].before, b[k].places * b[k].size);
}

/* Whether all places from one on are as they were. */
static int same(const struct lent *b, size_t from) {
    return !memcmp((char *)b->start + from * b->size, (char *)b->before + from * b->size, (b->places - from) * b->size);
}

/* ---- the calls, each with the lengths of its buffers in the order of its arguments */

static size_t corners, pass_count, from, frame_bytes;
static float cell_size, band, search, factor, boundary, residual;
static uint32_t rounds, depth;

#define SETTINGS cell_size, settings[1], settings[2], settings[3], settings[4], band

static uint32_t call_grow(const size_t *n) {
    return projective_grid_extend_from_labelled(xs, n[0], ys, n[1], pitches, n[2], shades, n[3], sheet, n[4], around, n[5],
                                                queue, n[6], attached, n[7], SETTINGS, search, factor, boundary, out, n[8]);
}

static uint32_t call_fill(const size_t *n) {
    return projective_grid_fill_grid_holes(xs, n[0], ys, n[1], pitches, n[2], shades, n[3], sheet, n[4], around, n[5],
                                           attached, n[6], SETTINGS, search, factor, rounds, out, n[7]);
}

static uint32_t call_local(const size_t *n) {
    return projective_grid_extend_via_local_homography(xs, n[0], ys, n[1], pitches, n[2], shades, n[3], sheet, n[4], around, n[5],
                                                       attached, n[6], SETTINGS, search, factor, rounds, residual, depth, out, n[7]);
}

static uint32_t call_read(const size_t *n) {
    return projective_grid_read_frame(frame, n[0], xs, n[1], ys, n[2], pitches, n[3], shades, n[4], sheet, n[5], around, n[6],
                                      passes, n[7], settings, n[8], out, n[9]);
}

static uint32_t call_write(const size_t *n) {
    return projective_grid_write_result(corners, pass_count, words, n[0], sheet, n[1], text, n[2], out, n[3]);
}

static uint32_t call_piece(const size_t *n) {
    return projective_grid_write_result_piece(corners, pass_count, words, n[0], sheet, n[1], from, text, n[2], out, n[3]);
}

/* ---- the trials of one call */

struct call {
    const char *name;
    uint32_t (*run)(const size_t *);
    size_t count;
    struct lent b[10];
};

/* Runs it with these lengths; all buffers are as they were before, and `keep` holds how they were. */
static uint32_t run(struct call *c, size_t shorter, size_t more) {
    size_t n[10];
    for (size_t k = 0; k < c->count; k++)
        n[k] = c->b[k].needed - (k == shorter) + (c->b[k].fixes_none ? 0 : more);
    keep(c->b, c->count);
    return c->run(n);
}

static void unchanged(struct call *c, const char *what) {
    for (size_t k = 0; k < c->count; k++)
        check(same(&c->b[k], 0), c->name, what, c->b[k].name);
    restore(c->b, c->count);
}

/* The label box that a search of the sheet finds, as a call writes it. */
static void search_box(int32_t *box) {
    memcpy(box, (int32_t[BOX]){1}, BOX * sizeof box[0]);
    for (int32_t place = 0; place < PROJECTIVE_GRID_SHEET; place++) {
        int32_t i = place / 128 - 64, j = place % 128 - 64;
        if (!(sheet[place] & PROJECTIVE_GRID_CORNER_BITS))
            continue;
        if (box[EMPTY])
            memcpy(box, (int32_t[BOX]){0, i, i, j, j}, BOX * sizeof box[0]);
        box[LOW_I] = i < box[LOW_I] ? i : box[LOW_I];
        box[HIGH_I] = i > box[HIGH_I] ? i : box[HIGH_I];
        box[LOW_J] = j < box[LOW_J] ? j : box[LOW_J];
        box[HIGH_J] = j > box[HIGH_J] ? j : box[HIGH_J];
    }
}

/* Each buffer one place short; then as long as is needed, and longer. */
static void lengths(struct call *c) {
    for (size_t k = 0; k < c->count; k++) {
        if (c->b[k].fixes_none)
            continue;
        check(run(c, k, 0) == PROJECTIVE_GRID_BUFFER_TOO_SHORT, c->name, "one place short is not answered by 7", c->b[k].name);
        unchanged(c, "a call that is answered by 7 changed a buffer");
    }
    for (size_t more = 0; more <= MORE; more += MORE) {
        int32_t box[BOX];
        check(run(c, c->count, more) == PROJECTIVE_GRID_DONE, c->name, "with all places that are needed it is not done", "all");
        search_box(box);
        check(!memcmp(around, box, sizeof box), c->name, "the box is not what a search of the sheet finds", "around");
        for (size_t k = 0; k < c->count; k++)
            check(same(&c->b[k], c->b[k].needed), c->name, "a place behind those that are needed was changed", c->b[k].name);
        if (!more)
            restore(c->b, c->count);
    }
}

/* Values that are refused; the values are put right again by the caller. */
static void refused(struct call *c, uint32_t number, const char *what) {
    check(run(c, c->count, 0) == number, c->name, "another refusal than expected", what);
    unchanged(c, what);
    check(run(c, c->count - 1, 0) == PROJECTIVE_GRID_BUFFER_TOO_SHORT, c->name, "7 is not tried first", what);
    unchanged(c, what);
}

/* 5 and 6: a corner that there is not, a corner on two places. A pass is lent the box of that sheet. */
static void labels(struct call *c) {
    uint16_t first = sheet[0], last = sheet[PROJECTIVE_GRID_SHEET - 1];
    sheet[0] = (uint16_t)(corners + 1);
    search_box(around);
    refused(c, PROJECTIVE_GRID_UNKNOWN_CORNER, "stranger");
    sheet[0] = sheet[PROJECTIVE_GRID_SHEET - 1] = 1;
    search_box(around);
    refused(c, PROJECTIVE_GRID_DUPLICATE, "doubled");
    sheet[0] = first, sheet[PROJECTIVE_GRID_SHEET - 1] = last;
    search_box(around);
}

/* 3: a wild float of each kind. */
static void floats(struct call *c) {
    float *wild[] = {&xs[0], &ys[corners - 1], &pitches[0], &cell_size, &settings[1], &band, &search, &factor};
    for (size_t k = 0; k < sizeof wild / sizeof wild[0]; k++) {
        float right = *wild[k];
        *wild[k] = k % 2 ? NAN : 1e9f;
        refused(c, PROJECTIVE_GRID_OUT_OF_RANGE, "wild");
        *wild[k] = right;
    }
}

/* 3: a shade byte that is none, on the first corner and on the last; tried before the labels. */
static void bytes(struct call *c) {
    uint16_t first = sheet[0];
    for (size_t k = 0; k < corners; k += corners > 1 ? corners - 1 : 1) {
        uint8_t right = shades[k];
        shades[k] = k % 2 ? 3 : 255;
        refused(c, PROJECTIVE_GRID_OUT_OF_RANGE, "a shade above 2");
        sheet[0] = (uint16_t)(corners + 1);
        refused(c, PROJECTIVE_GRID_OUT_OF_RANGE, "a shade above 2, and a stranger");
        sheet[0] = first;
        shades[k] = right;
    }
}

/* 2: 1,025 corners, with room for them. */
static void too_many(struct call *c) {
    struct call many = *c;
    for (size_t k = 0; k < many.count; k++)
        if (many.b[k].needed % corners == 0 && many.b[k].needed / corners <= 4 && many.b[k].start != sheet && many.b[k].start != around &&
            many.b[k].start != out)
            many.b[k].needed = many.b[k].needed / corners * (PROJECTIVE_GRID_CORNERS + 1);
    refused(&many, PROJECTIVE_GRID_OVER_LIMIT, "overfull");
}

/* 3: a box that differs from the sheet's; 7 and 2 are tried before it. */
static void wrong(struct call *c, const char *what) {
    refused(c, PROJECTIVE_GRID_OUT_OF_RANGE, what);
    too_many(c);
}

/* Every wrong box of the sheet as it is, whatever is wrong with its labels. */
static void wrong_boxes(struct call *c) {
    int32_t right[BOX];
    search_box(right);
    for (size_t k = LOW_I; k <= HIGH_J && !right[EMPTY]; k++) {
        int32_t other[] = {right[k] - 1, right[k] + 1, INT32_MIN, INT32_MAX};
        for (size_t m = 0; m < sizeof other / sizeof other[0]; m++) {
            around[k] = other[m];
            wrong(c, "a number of the box");
            around[k] = right[k];
        }
    }
    for (int32_t mark = -1; mark <= 2; mark++)
        if (mark != right[EMPTY]) {
            around[EMPTY] = mark;
            wrong(c, "the mark of the box");
        }
    around[EMPTY] = 1, memset(around + LOW_I, 0, 4 * sizeof around[0]);
    if (!right[EMPTY])
        wrong(c, "the empty box of a sheet with labels");
    memcpy(around, right, sizeof right);
}

/* On a sheet without labels, marks or not: the empty box is right whatever its numbers, and is written with zeros; any other is wrong. */
static void no_labels(struct call *c) {
    static uint16_t before[sizeof sheet / sizeof sheet[0]];
    int32_t right[BOX], wild[][4] = {{0}, {1, 2, 3, 4}, {INT32_MIN, INT32_MAX, INT32_MAX, INT32_MIN}, {63, -64, 63, -64}};
    memcpy(before, sheet, sizeof sheet), memcpy(right, around, sizeof right);
    for (size_t k = 0; k < PROJECTIVE_GRID_SHEET; k++)
        sheet[k] &= (uint16_t)~PROJECTIVE_GRID_CORNER_BITS;
    for (size_t k = 0; k < sizeof wild / sizeof wild[0]; k++) {
        around[EMPTY] = 1, memcpy(around + LOW_I, wild[k], sizeof wild[k]);
        check(run(c, c->count, 0) == PROJECTIVE_GRID_DONE, c->name, "the empty box is refused on a sheet without labels", "around");
        check(!memcmp(around, (int32_t[BOX]){1}, sizeof right), c->name, "the empty box is not written as 1 0 0 0 0", "around");
        for (size_t m = 0; m < c->count; m++) {
            int written = c->b[m].start == around || c->b[m].start == out;
            check(same(&c->b[m], written ? c->b[m].needed : 0), c->name, "a pass over no label changed a buffer", c->b[m].name);
        }
        restore(c->b, c->count);
    }
    search_box(around);
    wrong_boxes(c);
    memcpy(sheet, before, sizeof sheet), memcpy(around, right, sizeof right);
}

/* The box: wrong on the sheet as it is, on one with a stranger, on one with a corner on two places and on one without labels;
 * and fewer than five places, whatever they hold. */
static void boxes(struct call *c) {
    uint16_t first = sheet[0], last = sheet[PROJECTIVE_GRID_SHEET - 1];
    for (size_t faults = 0; faults < 3; faults++) {
        sheet[0] = faults ? (uint16_t)(faults == 1 ? corners + 1 : 1) : first;
        sheet[PROJECTIVE_GRID_SHEET - 1] = faults == 2 ? 1 : last;
        search_box(around);
        wrong_boxes(c);
    }
    sheet[0] = first, sheet[PROJECTIVE_GRID_SHEET - 1] = last;
    search_box(around);
    no_labels(c);
    struct call little = *c;
    size_t box = 0;
    while (little.b[box].start != around)
        box++;
    for (size_t places = 0; places < BOX; places++)
        for (int32_t off = 0; off < 2; off++) {
            little.b[box].needed = places, around[EMPTY] += 2 * off;
            check(run(&little, little.count, 0) == PROJECTIVE_GRID_BUFFER_TOO_SHORT, c->name, "fewer than five places", "around");
            unchanged(&little, "a call that is answered by 7 changed a buffer");
            around[EMPTY] -= 2 * off;
        }
}

static void pass(struct call *c) {
    too_many(c);
    floats(c);
    bytes(c);
    labels(c);
    boxes(c);
    lengths(c);
    check(out[ROLE] == PROJECTIVE_GRID_PLANT, c->name, "a pass writes another role than the plant's", "out");
}

/* ---- the reader and the writers */

static void read_refused(struct call *c, const char *bytes, size_t length, uint32_t number, uint32_t line) {
    struct call bad = *c;
    static uint8_t right[sizeof frame];
    memcpy(right, frame, sizeof frame);
    memcpy(frame, bytes, length < sizeof frame ? length : sizeof frame);
    bad.b[0].needed = length;
    uint32_t answer = run(&bad, bad.count, 0);
    check(PROJECTIVE_GRID_NUMBER(answer) == number, bad.name, "another refusal than expected", bytes);
    check(PROJECTIVE_GRID_LINE(answer) == line, bad.name, "another line than expected", bytes);
    unchanged(&bad, "a refused frame changed a buffer");
    memcpy(frame, right, sizeof frame);
}

#define FRONT "(frame 1)\n(cell 41200000)\n(axes (3f800000 00000000) (00000000 3f800000))\n(band 3e800000)\n"
#define CORNER "(corner (41200000 41200000) 00000000)\n"
#define SECOND_CORNER "(corner (41a00000 41200000) 00000000)\n"
#define FOUR(lines) lines lines lines lines
#define SIXTEEN(lines) FOUR(FOUR(lines))

/* The forms of a pass, bare or not, and the words that say it, all but the role: bare grow's numbers stand in its full form. */
#define GROW "(grow)\n"
#define FILL "(fill)\n"
#define FULL_GROW "(grow 3eb33333 3fc00000 3fa00000)\n"
#define FULL_FILL "(fill 3eb33333 3fc00000 1)\n"
#define OTHER_GROW "(grow 3f000000 40000000 40400000)\n"
#define OTHER_FILL "(fill 3f000000 40000000 64)\n"
#define LOCAL "(local 3f000000 40000000 7 3e800000 2)\n"
#define GROW_WORDS PROJECTIVE_GRID_GROW, 0x3eb33333, 0x3fc00000, 0x3fa00000, 0, 0
#define FILL_WORDS PROJECTIVE_GRID_FILL, 0x3eb33333, 0x3fc00000, 0, 1, 0
#define OTHER_GROW_WORDS PROJECTIVE_GRID_GROW, 0x3f000000, 0x40000000, 0x40400000, 0, 0
#define OTHER_FILL_WORDS PROJECTIVE_GRID_FILL, 0x3f000000, 0x40000000, 0, 64, 0
#define LOCAL_WORDS PROJECTIVE_GRID_LOCAL, 0x3f000000, 0x40000000, 0x3e800000, 7, 2

#define AS_PLANT "(as plant)\n"
#define AS_DEPOT "(as depot)\n"
#define AS_DEALER "(as dealer)\n"
#define PLANT PROJECTIVE_GRID_PLANT
#define DEPOT PROJECTIVE_GRID_DEPOT
#define DEALER PROJECTIVE_GRID_DEALER

/* A frame of these lines from the fifth on is read; the places of the passes hold these words, and behind them what they held.
 * Each buffer of the reader is also lent one place short: 111 places for passes are refused with 7, and 112 are not. */
static void read_passes(struct call *c, const char *lines, size_t count, uint32_t expected[][PASS_WORDS]) {
    struct call roled = *c;
    static uint8_t right[sizeof frame];
    memcpy(right, frame, sizeof frame);
    roled.b[0].needed = (size_t)snprintf((char *)frame, sizeof frame, FRONT "%s", lines);
    lengths(&roled);
    check(out[1] == count, roled.name, "another number of passes than expected", lines);
    for (size_t k = 0; k < count; k++)
        check(!memcmp(passes + PASS_WORDS * k, expected[k], sizeof expected[k]), roled.name, "another pass or role than expected", lines);
    for (size_t k = 0; k < roled.count; k++)
        if (roled.b[k].start == passes)
            check(same(&roled.b[k], PASS_WORDS * count), roled.name, "a place behind the words of the last pass was changed", lines);
    restore(roled.b, roled.count);
    memcpy(frame, right, sizeof frame);
}

/* Each role with each form, read or refused with 10 at the line of the pass; and roles from pass to pass. */
static void roles(struct call *c) {
    static const char *as[] = {AS_PLANT, AS_DEPOT, AS_DEALER};
    static const struct { const char *line; uint32_t words[PASS_WORDS - 1], last; } forms[] = {
        {GROW, {GROW_WORDS}, DEALER}, {FILL, {FILL_WORDS}, DEALER},
        {FULL_GROW, {GROW_WORDS}, DEPOT}, {FULL_FILL, {FILL_WORDS}, DEPOT},
        {OTHER_GROW, {OTHER_GROW_WORDS}, DEPOT}, {OTHER_FILL, {OTHER_FILL_WORDS}, DEPOT},
        {LOCAL, {LOCAL_WORDS}, PLANT},
    };
    for (uint32_t role = PLANT; role <= DEALER; role++)
        for (size_t k = 0; k < sizeof forms / sizeof forms[0]; k++) {
            char lines[512];
            uint32_t words[1][PASS_WORDS];
            memcpy(words[0], forms[k].words, sizeof forms[k].words);
            words[0][PROJECTIVE_GRID_PASS_ROLE] = role;
            if (role <= forms[k].last) {
                snprintf(lines, sizeof lines, "%s%s", as[role], forms[k].line);
                read_passes(c, lines, 1, words);
            } else {
                int length = snprintf(lines, sizeof lines, FRONT "%s%s", as[role], forms[k].line);
                read_refused(c, lines, (size_t)length, PROJECTIVE_GRID_NOT_PERMITTED, 6);
            }
        }
    read_passes(c, CORNER, 0, 0);
    /* without an as line it is the plant; a line holds until the next one, which may say the same */
    read_passes(c, CORNER GROW LOCAL AS_DEALER FILL GROW AS_DEPOT FULL_GROW FILL OTHER_FILL AS_PLANT LOCAL GROW AS_PLANT FILL, 10,
                (uint32_t[][PASS_WORDS]){{GROW_WORDS, PLANT}, {LOCAL_WORDS, PLANT}, {FILL_WORDS, DEALER}, {GROW_WORDS, DEALER},
                                         {GROW_WORDS, DEPOT}, {FILL_WORDS, DEPOT}, {OTHER_FILL_WORDS, DEPOT},
                                         {LOCAL_WORDS, PLANT}, {GROW_WORDS, PLANT}, {FILL_WORDS, PLANT}});
    /* the most passes, an as line before each: every place that is needed is written */
    uint32_t all[PASSES][PASS_WORDS];
    for (size_t k = 0; k < PASSES; k++)
        memcpy(all[k], (uint32_t[PASS_WORDS]){FILL_WORDS, k % 2 ? DEALER : DEPOT}, sizeof all[k]);
    read_passes(c, CORNER FOUR(AS_DEPOT FULL_FILL AS_DEALER FILL) FOUR(AS_DEPOT FILL AS_DEALER FILL), PASSES, all);
}

static void reader(struct call *c) {
    static char long_text[sizeof frame];
    read_refused(c, "", 0, PROJECTIVE_GRID_MALFORMED, 1);
    read_refused(c, "(frame 1)\n(cell 41200000)\n", 26, PROJECTIVE_GRID_MALFORMED, 3);
    read_refused(c, "(frame 1)\n(cell 7f800000)\n", 26, PROJECTIVE_GRID_OUT_OF_RANGE, 2);
    read_refused(c, long_text, PROJECTIVE_GRID_FRAME_BYTES + 1, PROJECTIVE_GRID_OVER_LIMIT, 0);
    static const struct { const char *lines; uint32_t number, line; } behind[] = {
        {"(shade 0 2)\n", PROJECTIVE_GRID_MALFORMED, 6},
        {"(shade 1 2)\n", PROJECTIVE_GRID_MALFORMED, 6},
        {"(shade 1 0)\n", PROJECTIVE_GRID_UNKNOWN_CORNER, 6},
        {"(shade 0 1)\n(shade 0 1)\n", PROJECTIVE_GRID_DUPLICATE, 7},
        {"(grow)\n(shade 0 1)\n", PROJECTIVE_GRID_MALFORMED, 7},
        /* two sets of labels that are not joined, and a fault behind them */
        {"(label 0 (0 0))\n(patch)\n(grow)\n", PROJECTIVE_GRID_NO_SHARED_CORNER, 7},
        {SECOND_CORNER "(label 0 (0 0))\n(label 1 (1 0))\n(patch)\n(label 0 (0 0))\n(label 1 (2 0))\n", PROJECTIVE_GRID_PATCHES_CLASH, 9},
        {SECOND_CORNER "(label 0 (63 0))\n(patch)\n(label 0 (0 0))\n(label 1 (1 0))\n(grow)\n", PROJECTIVE_GRID_OFF_SHEET, 8},
        {"(label 0 (0 0))\n(patch)\n(patch)\n", PROJECTIVE_GRID_MALFORMED, 8},
        {"(label 0 (0 0))\n(patch)\n(label 0 (64 0))\n", PROJECTIVE_GRID_OFF_SHEET, 8},
        {"(label 0 (0 0))\n(patch)\n(grow)", PROJECTIVE_GRID_MALFORMED, 8},
        /* an as line, and behind it what is no pass, or one that its role may not run */
        {AS_DEALER, PROJECTIVE_GRID_MALFORMED, 7},
        {AS_DEALER AS_DEPOT GROW, PROJECTIVE_GRID_MALFORMED, 7},
        {AS_PLANT SECOND_CORNER, PROJECTIVE_GRID_MALFORMED, 7},
        {AS_DEPOT "(label 0 (0 0))\n", PROJECTIVE_GRID_MALFORMED, 7},
        {"(label 0 (0 0))\n" AS_DEALER "(patch)\n", PROJECTIVE_GRID_MALFORMED, 8},
        {AS_DEALER "(shade 0 0)\n", PROJECTIVE_GRID_MALFORMED, 7},
        {AS_PLANT GROW "(label 0 (0 0))\n", PROJECTIVE_GRID_MALFORMED, 8},
        {"(as Dealer)\n", PROJECTIVE_GRID_MALFORMED, 6},
        {"(as)\n", PROJECTIVE_GRID_MALFORMED, 6},
        {AS_DEALER "(local)\n", PROJECTIVE_GRID_MALFORMED, 7},
        {AS_DEALER "(local 3f000000 40000000 7 3e800000 5)\n", PROJECTIVE_GRID_OUT_OF_RANGE, 7},
        {AS_DEALER "(grow 7fc00000 3fc00000 3fa00000)\n", PROJECTIVE_GRID_OUT_OF_RANGE, 7},
        {SIXTEEN(GROW) AS_DEALER LOCAL, PROJECTIVE_GRID_OVER_LIMIT, 23},
        {SIXTEEN(GROW) AS_DEALER, PROJECTIVE_GRID_MALFORMED, 23},
        {AS_DEALER GROW FILL LOCAL, PROJECTIVE_GRID_NOT_PERMITTED, 9},
        {AS_DEALER GROW AS_DEPOT FULL_GROW FULL_FILL LOCAL, PROJECTIVE_GRID_NOT_PERMITTED, 11},
        {AS_PLANT LOCAL AS_DEALER FULL_FILL, PROJECTIVE_GRID_NOT_PERMITTED, 9},
        {"(label 0 (0 0))\n(patch)\n" AS_DEALER LOCAL, PROJECTIVE_GRID_NOT_PERMITTED, 9},
        {"(label 0 (0 0))\n(patch)\n" AS_DEALER GROW, PROJECTIVE_GRID_NO_SHARED_CORNER, 7},
    };
    for (size_t k = 0; k < sizeof behind / sizeof behind[0]; k++) {
        char lines[1024];
        int length = snprintf(lines, sizeof lines, FRONT CORNER "%s", behind[k].lines);
        read_refused(c, lines, (size_t)length, behind[k].number, behind[k].line);
    }
    roles(c);
    lengths(c);
    for (size_t k = 0; k < sizeof shades; k++)
        check(k < out[0] ? shades[k] <= PROJECTIVE_GRID_KIND_1 : shades[k] == UNTOUCHED, c->name,
              "a shade that is none, or one behind the last corner's", "shades");
}

/* 2, 3, 5 and 6 of a writer, with room for a longer text than the right one. */
static void writer(struct call *c) {
    struct call roomy = *c;
    roomy.b[2].needed = TEXT;
    /* of grow, which has no shade, and of local, the third */
    uint32_t *local = words + 2 * WORDS;
    uint32_t wild[][2] = {{0, 3}, {1, 1048577}, {5, 65}, {6, 2}, {8, 2}, {9, 1}, {9, 2}, {10, 1}, {2 * WORDS + 9, 2},
                          {2 * WORDS + 10, local[9] ? 1073741825 : 1}, {ROLE, 3}, {WORDS + ROLE, 4}, {2 * WORDS + ROLE, 255},
                          {2 * WORDS + ROLE, UINT32_MAX}};
    for (size_t k = 0; k < sizeof wild / sizeof wild[0]; k++) {
        uint32_t right = words[wild[k][0]];
        words[wild[k][0]] = wild[k][1];
        refused(&roomy, PROJECTIVE_GRID_OUT_OF_RANGE, "wild");
        words[wild[k][0]] = right;
    }
    uint32_t shaded[2] = {local[9], local[10]};
    local[9] = 0, local[10] = 1;
    refused(&roomy, PROJECTIVE_GRID_OUT_OF_RANGE, "unmatched without a shade");
    local[9] = 1, local[10] = 1073741824;
    check(run(&roomy, roomy.count, 0) == PROJECTIVE_GRID_DONE, roomy.name, "the largest unmatched is not written", "words");
    restore(roomy.b, roomy.count);
    local[9] = shaded[0], local[10] = shaded[1];
    labels(&roomy);
    size_t right = corners;
    corners = PROJECTIVE_GRID_CORNERS + 1;
    refused(&roomy, PROJECTIVE_GRID_OVER_LIMIT, "overfull");
    corners = right;
    lengths(c);
}

/* All pieces by 128 bytes and by 4,096, joined, are the whole text. */
static void joined(size_t bytes) {
    static uint8_t kept[TEXT];
    memcpy(kept, text, bytes);
    for (size_t room = 128; room <= 4096; room += 4096 - 128) {
        size_t at = 0, line = 0;
        while (line < pass_count + LINES) {
            uint32_t end[2];
            uint32_t answer = projective_grid_write_result_piece(corners, pass_count, words, WORDS * pass_count, sheet,
                                                                 PROJECTIVE_GRID_SHEET, line, text, room, end, 2);
            if (answer || end[1] <= line || at + end[0] > bytes || memcmp(kept + at, text, end[0])) {
                check(0, "write_result_piece", "the pieces, joined, are not the text", "text");
                return;
            }
            at += end[0], line = end[1];
        }
        check(at == bytes, "write_result_piece", "the pieces, joined, are not the text", "text");
    }
}

/* ---- the role lines */

static const char *const role_names[] = {"plant", "depot", "dealer"};

/* The three role lines of the words: each the sums over the passes under that role, to which fill adds what it attached alone.
 * A role above 2 counts as the dealer's: no such text is written, but it has a length. */
static size_t role_lines(char *lines, size_t room) {
    size_t length = 0;
    for (uint32_t role = PLANT; role <= DEALER; role++) {
        unsigned long long sums[4] = {0};
        for (size_t k = 0; k < pass_count; k++) {
            const uint32_t *outcome = words + WORDS * k;
            uint32_t under = outcome[ROLE] > DEALER ? DEALER : outcome[ROLE];
            for (size_t n = 0; n < (outcome[KIND] == PROJECTIVE_GRID_FILL ? 1 : 4); n++)
                sums[n] += under == role ? outcome[PROJECTIVE_GRID_OUTCOME_ATTACHED + n] : 0;
        }
        length += (size_t)snprintf(lines + length, room - length, "(role %s %llu %llu %llu %llu)\n", role_names[role], sums[0], sums[1],
                                   sums[2], sums[3]);
    }
    return length;
}

/* The text of the words and the sheet, its length, and where its role lines stand: behind the first line and those of the passes. */
static uint8_t whole[TEXT];
static size_t whole_length, roles_at, roles_length;

/* Writes it; what stands before and behind the role lines has to be this, where it is known, and they have to be the sums. */
static int write_whole(const uint8_t *before, size_t before_length, const uint8_t *behind, size_t behind_length) {
    char lines[256];
    uint32_t length, answer = projective_grid_write_result(corners, pass_count, words, WORDS * pass_count, sheet, PROJECTIVE_GRID_SHEET,
                                                           whole, TEXT, &length, 1);
    whole_length = answer ? 0 : length, roles_at = 0, roles_length = role_lines(lines, sizeof lines);
    size_t above = 1 + pass_count;
    for (size_t k = 0; k < pass_count; k++)
        above += words[WORDS * k + PROJECTIVE_GRID_OUTCOME_SHADED];
    while (above && roles_at < whole_length)
        above -= whole[roles_at++] == '\n';
    size_t end = roles_at + roles_length;
    return !answer && end <= whole_length && !memcmp(whole + roles_at, lines, roles_length)
        && (!before || (roles_at == before_length && !memcmp(whole, before, before_length)))
        && (!behind || (whole_length - end == behind_length && !memcmp(whole + end, behind, behind_length)));
}

/* A piece from that line on in so much room: how many bytes it has to have, from where in the text on, and the line behind it. */
static void piece_is(size_t line, size_t room, size_t at, size_t length, size_t next) {
    uint32_t end[2] = {0};
    uint32_t answer = projective_grid_write_result_piece(corners, pass_count, words, WORDS * pass_count, sheet, PROJECTIVE_GRID_SHEET, line,
                                                         text, room, end, 2);
    check(!answer && end[0] == length && end[1] == next && !memcmp(text, whole + at, length), "write_result_piece",
          "another piece than expected", "about the role lines");
}

/* Pieces that begin or end at a role line, one line each, two and three; and that behind the last line of the text. */
static void pieces_about_roles(void) {
    size_t at = roles_at, line = pass_count + 1, starts[4] = {roles_at};
    for (size_t k = 1; k < 4; starts[k++] = at)
        while (at < whole_length && whole[at++] != '\n');
    for (size_t k = 0; k < 3; k++)
        for (size_t m = k + 1; m <= 3; m++) {
            /* with one byte more there is room for the line behind */
            piece_is(line + k, 128 + starts[m - 1] - starts[k], starts[k], starts[m] - starts[k], line + m);
            if (m > k + 1)
                piece_is(line + k, 127 + starts[m - 1] - starts[k], starts[k], starts[m - 1] - starts[k], line + m - 1);
        }
    /* the last pass line, with its unmatched line, or where there is none the first line */
    size_t above = pass_count && words[WORDS * (pass_count - 1) + PROJECTIVE_GRID_OUTCOME_SHADED] ? 2 : 1, last = roles_at;
    for (; last && above; above -= !last || whole[last - 1] == '\n')
        last--;
    piece_is(pass_count, 128, last, roles_at - last, line);
    piece_is(pass_count + LINES, 128, 0, 0, pass_count + LINES);
}

/* Each pass under each role: the same text but for the role lines. */
static void each_role(const uint8_t *before, size_t before_length, const uint8_t *behind, size_t behind_length) {
    for (uint32_t all = 0; all < 27; all++) {
        words[ROLE] = all % 3, words[WORDS + ROLE] = all / 3 % 3, words[2 * WORDS + ROLE] = all / 9;
        check(write_whole(before, before_length, behind, behind_length), "write_result", "other role lines than the sums", "roles");
        pieces_about_roles();
    }
    words[ROLE] = words[WORDS + ROLE] = words[2 * WORDS + ROLE] = PLANT;
}

/* Words that a pass has not: counts of a fill besides what it added, the largest sums, no pass, and the length of a text that is refused. */
static void other_words(const uint8_t *behind, size_t behind_length) {
    static uint32_t kept[sizeof words / sizeof words[0]];
    size_t kept_count = pass_count;
    memcpy(kept, words, sizeof words);
    for (size_t n = 2; n < 5; n++)
        words[WORDS + n] = (uint32_t)n;
    check(words[WORDS + KIND] == PROJECTIVE_GRID_FILL && write_whole(0, 0, behind, behind_length), "write_result",
          "fill adds to more than attached", "words");
    for (pass_count = 0; pass_count < PASSES; pass_count++) {
        check(write_whole(0, 0, behind, behind_length), "write_result", "other role lines than the sums", "so many passes");
        pieces_about_roles();
        memcpy(words + WORDS * pass_count, (uint32_t[WORDS]){PROJECTIVE_GRID_GROW, 1048576, 1048576, 1048576, 1048576}, WORDS * sizeof words[0]);
        words[WORDS * pass_count + ROLE] = DEALER;
    }
    static const char largest[] = "(role plant 0 0 0 0)\n(role depot 0 0 0 0)\n(role dealer 16777216 16777216 16777216 16777216)\n";
    check(write_whole(0, 0, behind, behind_length) && !memcmp(whole + roles_at, largest, sizeof largest - 1), "write_result",
          "other role lines than the largest sums", "words");
    pieces_about_roles();
    /* three grows with counts that no outcome has, of the dealer and of no role: 7 asks for the length, with sums above 32 bits */
    static const char wild[] =
        "(result 1)\n(grow 4294967295 4294967295 4294967295 4294967295 no)\n(grow 4294967295 4294967295 4294967295 4294967295 no)\n"
        "(grow 4294967295 4294967295 4294967295 4294967295 no)\n"
        "(role plant 0 0 0 0)\n(role depot 0 0 0 0)\n(role dealer 12884901885 12884901885 12884901885 12884901885)\n";
    pass_count = 3;
    for (size_t k = 0; k < 3; k++) {
        memcpy(words + WORDS * k, (uint32_t[WORDS]){PROJECTIVE_GRID_GROW, UINT32_MAX, UINT32_MAX, UINT32_MAX, UINT32_MAX}, WORDS * sizeof words[0]);
        words[WORDS * k + ROLE] = k ? UINT32_MAX : DEALER;
    }
    for (size_t more = 0; more < 2; more++) {
        uint32_t length = UNTOUCHED;
        uint32_t answer = projective_grid_write_result(corners, pass_count, words, WORDS * pass_count, sheet, PROJECTIVE_GRID_SHEET, text,
                                                       sizeof wild - 2 + behind_length + more, &length, 1);
        check(answer == (more ? PROJECTIVE_GRID_OUT_OF_RANGE : PROJECTIVE_GRID_BUFFER_TOO_SHORT) && length == UNTOUCHED, "write_result",
              "the length of a refused text is not that of its words", "words");
    }
    pass_count = kept_count;
    memcpy(words, kept, sizeof words);
}

/* The role lines of the three passes, which are the plant's as they left them, and of other words. */
static void counts_by_role(void) {
    check(write_whole(0, 0, 0, 0), "write_result", "other role lines than the sums", "words");
    size_t before_length = roles_at, behind_length = whole_length - roles_at - roles_length;
    uint8_t *before = malloc(before_length), *behind = malloc(behind_length + 1);
    if (!before || !behind) {
        perror("short");
        exit(1);
    }
    memcpy(before, whole, before_length), memcpy(behind, whole + roles_at + roles_length, behind_length);
    each_role(before, before_length, behind, behind_length);
    other_words(behind, behind_length);
    words[ROLE] = DEALER, words[2 * WORDS + ROLE] = DEPOT;
    check(write_whole(before, before_length, behind, behind_length), "write_result", "other role lines than the sums", "roles");
    memcpy(text, whole, whole_length);
    joined(whole_length);
    words[ROLE] = words[2 * WORDS + ROLE] = PLANT;
    free(before), free(behind);
}

static void made(struct call *c) {
    for (size_t k = 0; k < c->count; k++)
        if (!(c->b[k].before = malloc(c->b[k].places * c->b[k].size))) {
            perror("short");
            exit(1);
        }
}

int main(int count, char **arguments) {
    FILE *file = count == 2 ? fopen(arguments[1], "rb") : 0;
    if (!file)
        return fprintf(stderr, "short: it takes one frame file\n"), 2;
    frame_bytes = fread(frame, 1, PROJECTIVE_GRID_FRAME_BYTES, file);
    memset(out, UNTOUCHED, sizeof out), memset(around, UNTOUCHED, sizeof around);
    memset(text, UNTOUCHED, sizeof text), memset(words, UNTOUCHED, sizeof words);
    memset(queue, UNTOUCHED, sizeof queue), memset(attached, UNTOUCHED, sizeof attached), memset(passes, UNTOUCHED, sizeof passes);
    memset(sheet, UNTOUCHED, sizeof sheet), memset(xs, UNTOUCHED, sizeof xs), memset(ys, UNTOUCHED, sizeof ys);
    memset(pitches, UNTOUCHED, sizeof pitches), memset(shades, UNTOUCHED, sizeof shades), memset(settings, UNTOUCHED, sizeof settings);

    struct call reading = {"read_frame", call_read, 10,
                           {GIVEN(frame, frame_bytes), LENT(xs, 1024), LENT(ys, 1024), LENT(pitches, 1024), LENT(shades, 1024),
                            LENT(sheet, 16384), LENT(around, BOX), LENT(passes, 112), LENT(settings, 6), LENT(out, 2)}};
    made(&reading);
    reader(&reading);
    corners = out[0], pass_count = out[1];
    cell_size = settings[0], band = settings[5], search = 0.35f, factor = 1.5f, boundary = 2.0f, residual = 0.5f;
    rounds = 4, depth = 1;
    if (!corners || corners > 1024 || failures)
        return printf("short: the frame was not read, or has no corner\n"), 1;

    struct call growing = {"extend_from_labelled", call_grow, 9,
                           {GIVEN(xs, corners), LENT(ys, corners), LENT(pitches, corners), LENT(shades, corners),
                            LENT(sheet, 16384), LENT(around, BOX), LENT(queue, 4 * corners), LENT(attached, corners), LENT(out, WORDS)}};
    struct call filling = {"fill_grid_holes", call_fill, 8,
                           {GIVEN(xs, corners), LENT(ys, corners), LENT(pitches, corners), LENT(shades, corners),
                            LENT(sheet, 16384), LENT(around, BOX), LENT(attached, corners), LENT(out, WORDS)}};
    struct call mapping = {"extend_via_local_homography", call_local, 8,
                           {GIVEN(xs, corners), LENT(ys, corners), LENT(pitches, corners), LENT(shades, corners),
                            LENT(sheet, 16384), LENT(around, BOX), LENT(attached, corners), LENT(out, WORDS)}};
    struct call *all[] = {&growing, &filling, &mapping};
    for (size_t k = 0; k < 3; k++) {
        made(all[k]);
        pass(all[k]);
        memcpy(words + WORDS * k, out, WORDS * sizeof out[0]);
    }

    pass_count = 3;
    struct call cutting = {"write_result_piece", call_piece, 4,
                           {LENT(words, 3 * WORDS), LENT(sheet, 16384), LENT(text, 128), LENT(out, 2)}};
    struct call writing = {"write_result", call_write, 4,
                           {LENT(words, 3 * WORDS), LENT(sheet, 16384), LENT(text, TEXT), LENT(out, 1)}};
    made(&writing), made(&cutting);
    if (run(&writing, writing.count, 0) != PROJECTIVE_GRID_DONE)
        return printf("short: the result is not written\n"), 1;
    writing.b[2].needed = out[0];
    restore(writing.b, writing.count);
    writer(&writing);
    joined(writing.b[2].needed);
    counts_by_role();
    from = pass_count + LINES + 1;
    refused(&cutting, PROJECTIVE_GRID_OUT_OF_RANGE, "a line behind the last");
    from = 0;
    writer(&cutting);

    printf("short: %u checks of every buffer of the six calls, %u failed\n", checks, failures);
    return failures != 0;
}
