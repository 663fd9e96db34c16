/* The proved grid recovery for C: the three passes, the reader of a frame and the text of a result.
 *
 * The functions are those of the crate grid_export; `rt lib` in crates/grid_export proves them and
 * writes crates/grid_export/out/libgrid_export.a, which links on x86-64. "01" is the specification, "02" the list of requests.
 *
 * WHAT HOLDS OF EVERY FUNCTION
 *
 * The answer is 0 (done) or the number of a refusal, 1 to 10; the reader's has the line in it too, see there. Later requests
 * may add numbers (02, 3/14): take any answer but 0 for a refusal. No function asks anything of the values that it is
 * lent: each checks them and refuses what is wrong. A refused call changes no place of any buffer. A call that is done
 * writes what is said here, and leaves every other place of every buffer as it was. No function keeps a pointer, allocates,
 * reads or writes anything else, or runs without end.
 *
 * WHAT THE CALLER OWES (the proof assumes it, and nothing checks it)
 *
 * - A buffer is its start and its length in places (not bytes). So many places must be there.
 * - The buffers of one call must not overlap one another.
 * - A start must not be null and must be aligned for its type, even where the length is 0.
 * - No other thread may write to a buffer during a call, or read one that the call may write to.
 * - Stack: a pass needs some 260 KB of it, whichever it is, the reader 68 KB, the writers less; a thread of 300 KB is enough
 *   for all.
 *
 * A buffer may be longer than needed.
 */
#ifndef PROJECTIVE_GRID_H
#define PROJECTIVE_GRID_H

#include <stddef.h>
#include <stdint.h>

#ifdef __cplusplus
extern "C" {
#endif

/* The answers. The refusals have 01's numbers, from 8 on 02's; the word for each stands beside it (that of 8 and of 9 is
 * ours). The passes and the writers try 7, 2, 3, 5, 6 in this order; the reader tries 7, then the number of bytes (2, line
 * 0), then line by line 1 to 6 and 10 behind them, and where all lines are fine and the frame has two sets of labels 8, 9
 * and 4, at the patch line (02, 3/14). */
enum projective_grid_answer {
    PROJECTIVE_GRID_DONE = 0,
    PROJECTIVE_GRID_MALFORMED = 1,        /* bent: line missing, out of order or ill-formed */
    PROJECTIVE_GRID_OVER_LIMIT = 2,       /* overfull: a limit on bytes, corners or passes passed */
    PROJECTIVE_GRID_OUT_OF_RANGE = 3,     /* wild: number non-finite or out of range; shade byte above 2; label box not the sheet's */
    PROJECTIVE_GRID_OFF_SHEET = 4,        /* off sheet: label's cell outside, at the patch line after the join's shift */
    PROJECTIVE_GRID_UNKNOWN_CORNER = 5,   /* stranger: label's or shade's corner not given */
    PROJECTIVE_GRID_DUPLICATE = 6,        /* doubled: cell or corner labelled twice in one set, corner shaded twice */
    PROJECTIVE_GRID_BUFFER_TOO_SHORT = 7, /* short: lent buffer too short */
    PROJECTIVE_GRID_NO_SHARED_CORNER = 8, /* apart: no corner is in both sets of labels */
    PROJECTIVE_GRID_PATCHES_CLASH = 9,    /* clash: no shift gives every shared corner one cell and every cell one corner */
    PROJECTIVE_GRID_NOT_PERMITTED = 10    /* not yours: a pass that its role may not run; the reader's alone, see the roles */
};

enum {
    /* limits of a frame */
    PROJECTIVE_GRID_FRAME_BYTES = 65536,
    PROJECTIVE_GRID_CORNERS = 1024,
    PROJECTIVE_GRID_PASSES = 16,
    /* places needed */
    PROJECTIVE_GRID_SHEET = 16384,
    PROJECTIVE_GRID_BOX = 5,
    PROJECTIVE_GRID_QUEUE_PER_CORNER = 4,
    PROJECTIVE_GRID_ATTACHED_PER_CORNER = 1,
    PROJECTIVE_GRID_PASS_WORDS = 7,
    PROJECTIVE_GRID_OUTCOME_WORDS = 12,
    PROJECTIVE_GRID_SETTINGS = 6,
    PROJECTIVE_GRID_READ_OUT = 2,
    PROJECTIVE_GRID_WRITE_OUT = 1,
    PROJECTIVE_GRID_PIECE_OUT = 2,
    /* a piece needs room for any one line */
    PROJECTIVE_GRID_LINE_BYTES = 128,
    /* the lines of a result's text besides one for each pass: the first line, three of roles, three for each cell */
    PROJECTIVE_GRID_LINES = 49156,
    /* no result's text is longer: 16 + 49,156 lines of at most 127 bytes */
    PROJECTIVE_GRID_LONGEST_TEXT = 6244844
};

/* THE SHEET: 128 by 128 cells, i and j from -64 to 63; the cell (i, j) has the place (i + 64) * 128 + (j + 64). A place
 * holds 0 in its low 14 bits for no corner, or the number of its corner plus 1; 0x4000 is the hole mark, 0x8000 the
 * ambiguous mark. */
#define PROJECTIVE_GRID_PLACE(i, j) (((i) + 64) * 128 + ((j) + 64))
#define PROJECTIVE_GRID_CORNER_BITS 0x3fff
#define PROJECTIVE_GRID_HOLE 0x4000
#define PROJECTIVE_GRID_AMBIGUOUS 0x8000

/* THE LABEL BOX, kept with the sheet (02, 5/14): the lowest and highest i and j of the labelled cells, and before them a mark
 * for a sheet without labels. The reader writes the box of the sheet that it writes. Each pass is lent the box of its sheet
 * behind it, and a pass that is done writes the box of the sheet that it leaves: so lend each the same five places, as the
 * reader or the last pass left them. Fewer than five are refused with 7.
 * A mark other than 0 or 1, and a box that is not what a search of the sheet finds, is refused with 3: after 7 and 2, before
 * 5 and 6, whose labels count for the box too. Where the mark is 1 the four numbers count for nothing, whatever they are:
 * that box is the empty one, and the right one only on a sheet without labels.
 * A box that is written has no numbers but 0 where it is empty: 1 0 0 0 0. Places behind the fifth are neither looked at
 * nor written. The writers of the text take no box. */
enum projective_grid_box {
    PROJECTIVE_GRID_BOX_EMPTY = 0,  /* 1 where no cell is labelled, else 0 */
    PROJECTIVE_GRID_BOX_LOW_I = 1,  /* -64 to 63, as the others */
    PROJECTIVE_GRID_BOX_HIGH_I = 2,
    PROJECTIVE_GRID_BOX_LOW_J = 3,
    PROJECTIVE_GRID_BOX_HIGH_J = 4
};

/* THE SHADES: a byte for each corner, whether it has a kind and which (02, 1/14). Where one of the first n is not 0, the
 * cell (i, j) takes only corners of kind 0 if i + j is even and of kind 1 if it is odd, and a corner without a shade is
 * never a candidate. Labels that stand on the sheet are not tested. A byte above 2 among the first n is refused with 3;
 * bytes behind them are not looked at. Where no corner has a kind, lend n zeros. */
enum projective_grid_shade {
    PROJECTIVE_GRID_NO_SHADE = 0,
    PROJECTIVE_GRID_KIND_0 = 1,
    PROJECTIVE_GRID_KIND_1 = 2
};

/* A PASS OF A FRAME: seven words. Floats are the bits of a float. */
enum projective_grid_pass {
    PROJECTIVE_GRID_PASS_KIND = 0,    /* a kind, see below */
    PROJECTIVE_GRID_PASS_SEARCH = 1,  /* bits */
    PROJECTIVE_GRID_PASS_FACTOR = 2,  /* bits */
    PROJECTIVE_GRID_PASS_THIRD = 3,   /* bits: grow's boundary, local's residual; fill: 0 */
    PROJECTIVE_GRID_PASS_ROUNDS = 4,  /* fill and local; grow: 0 */
    PROJECTIVE_GRID_PASS_DEPTH = 5,   /* local; grow and fill: 0 */
    PROJECTIVE_GRID_PASS_ROLE = 6     /* who runs it: a role, see below */
};

enum projective_grid_kind { PROJECTIVE_GRID_GROW = 0, PROJECTIVE_GRID_FILL = 1, PROJECTIVE_GRID_LOCAL = 2 };

/* THE ROLES: who runs a pass of a frame (02, 6/14). A line (as plant), (as depot) or (as dealer) right before a pass says who
 * runs that pass and all behind it until the next such line; passes before the first are the plant's. A dealer may run the
 * bare (grow) and (fill), a depot any grow and fill, the plant all. The reader refuses with 10, at the line of the pass, a
 * frame with a pass that its role may not run: after 1, 2 and 3 of that line. A bare form whose numbers are written out is
 * not bare, although the words of the pass are the same.
 * The reader alone refuses for a role. The calls of the three passes know none: they run what they are lent, and write the
 * plant's into the outcome. Who runs a frame's passes puts the role of each over it, see the outcome. */
enum projective_grid_role { PROJECTIVE_GRID_PLANT = 0, PROJECTIVE_GRID_DEPOT = 1, PROJECTIVE_GRID_DEALER = 2 };

/* THE OUTCOME OF A PASS: twelve words; 0 for what the pass does not have. A pass writes them, and the writers read them:
 * lend pass k the words from 12 * k on, and the writers all of them.
 * The last word is the role under which the writers count the pass (02, 7/14). A pass writes 0 there, the plant's. Who runs
 * a frame puts word 6 of pass k, as the reader wrote it, over word 12 * k + 11 once the pass is done. */
enum projective_grid_outcome {
    PROJECTIVE_GRID_OUTCOME_KIND = 0,
    PROJECTIVE_GRID_OUTCOME_ATTACHED = 1,  /* fill: added. So many places of the attached list are new */
    PROJECTIVE_GRID_OUTCOME_NO_CANDIDATE = 2,
    PROJECTIVE_GRID_OUTCOME_AMBIGUOUS = 3,
    PROJECTIVE_GRID_OUTCOME_EDGE = 4,
    PROJECTIVE_GRID_OUTCOME_ROUNDS = 5,
    PROJECTIVE_GRID_OUTCOME_HAS_RESIDUAL = 6,  /* 1 if local recorded a residual, else 0 */
    PROJECTIVE_GRID_OUTCOME_RESIDUAL = 7,      /* the bits of the largest one */
    PROJECTIVE_GRID_OUTCOME_RIM = 8,           /* 1 for yes, 0 for no */
    PROJECTIVE_GRID_OUTCOME_SHADED = 9,        /* 1 if local was lent a shade, else 0 */
    PROJECTIVE_GRID_OUTCOME_UNMATCHED = 10,    /* local, lent a shade: the corners passed over for it, at every gathering */
    PROJECTIVE_GRID_OUTCOME_ROLE = 11          /* who ran it: a role, see above; a pass writes 0 */
};

/* THE SETTINGS: six floats, as the reader writes them and in the order in which the passes take them. */
enum projective_grid_setting {
    PROJECTIVE_GRID_CELL_SIZE = 0,
    PROJECTIVE_GRID_AXIS_I_X = 1,
    PROJECTIVE_GRID_AXIS_I_Y = 2,
    PROJECTIVE_GRID_AXIS_J_X = 3,
    PROJECTIVE_GRID_AXIS_J_Y = 4,
    PROJECTIVE_GRID_EDGE_LENGTH_TOL = 5  /* 01's band */
};

/* Grow. The corners are xs, ys, pitches and shades; their number n is xs_len. Needed: n places each of ys, pitches, shades
 * and attached, 4 * n of queue, 16,384 of sheet, 5 of around, 12 of out.
 * Refused with 3 also where around does not hold the label box of sheet, see there.
 * Done: the sheet holds what grow left there, the front of around its label box, the front of queue the places of the
 * visited cells in order, the front of attached those of the new cells in order, the front of out grow's twelve words. */
uint32_t projective_grid_extend_from_labelled(
    const float *xs, size_t xs_len,
    const float *ys, size_t ys_len,
    const float *pitches, size_t pitches_len,
    const uint8_t *shades, size_t shades_len,
    uint16_t *sheet, size_t sheet_len,
    int32_t *around, size_t around_len,
    uint16_t *queue, size_t queue_len,
    uint16_t *attached, size_t attached_len,
    float cell_size, float axis_i_x, float axis_i_y, float axis_j_x, float axis_j_y, float edge_length_tol,
    float attach_search_rel, float attach_ambiguity_factor, float boundary_search_factor,
    uint32_t *out, size_t out_len);

/* Fill. As grow, but it is lent no queue. */
uint32_t projective_grid_fill_grid_holes(
    const float *xs, size_t xs_len,
    const float *ys, size_t ys_len,
    const float *pitches, size_t pitches_len,
    const uint8_t *shades, size_t shades_len,
    uint16_t *sheet, size_t sheet_len,
    int32_t *around, size_t around_len,
    uint16_t *attached, size_t attached_len,
    float cell_size, float axis_i_x, float axis_i_y, float axis_j_x, float axis_j_y, float edge_length_tol,
    float attach_search_rel, float attach_ambiguity_factor, uint32_t max_iters,
    uint32_t *out, size_t out_len);

/* Local. As grow, but it is lent no queue. */
uint32_t projective_grid_extend_via_local_homography(
    const float *xs, size_t xs_len,
    const float *ys, size_t ys_len,
    const float *pitches, size_t pitches_len,
    const uint8_t *shades, size_t shades_len,
    uint16_t *sheet, size_t sheet_len,
    int32_t *around, size_t around_len,
    uint16_t *attached, size_t attached_len,
    float cell_size, float axis_i_x, float axis_i_y, float axis_j_x, float axis_j_y, float edge_length_tol,
    float search_rel, float ambiguity_factor, uint32_t max_iters, float max_residual_rel, uint32_t extend_depth,
    uint32_t *out, size_t out_len);

/* Reads a frame. Needed: 1,024 places each of xs, ys, pitches and shades, 16,384 of sheet, 5 of around, 112 of
 * passes, 6 of settings, 2 of out.
 * Done: the corners stand at the front of xs, ys, pitches and shades, the sheet of the given labels (where the frame has two
 * sets of them, both joined, in the cells of the first) in the first 16,384 places of sheet, its label box at the front of
 * around, seven words for each pass at the front of passes, the six settings at the front of settings, and in out the number
 * of corners and the number of passes. As lines are no passes.
 * Refused: the answer is the number plus 16 times the line of the frame; the line is 0 where there are too many bytes, and
 * for 7. PROJECTIVE_GRID_NUMBER and PROJECTIVE_GRID_LINE take it apart. */
#define PROJECTIVE_GRID_NUMBER(answer) ((answer) % 16)
#define PROJECTIVE_GRID_LINE(answer) ((answer) / 16)

uint32_t projective_grid_read_frame(
    const uint8_t *text, size_t text_len,
    float *xs, size_t xs_len,
    float *ys, size_t ys_len,
    float *pitches, size_t pitches_len,
    uint8_t *shades, size_t shades_len,
    uint16_t *sheet, size_t sheet_len,
    int32_t *around, size_t around_len,
    uint32_t *passes, size_t passes_len,
    float *settings, size_t settings_len,
    uint32_t *out, size_t out_len);

/* Writes the whole text of a result. Needed: 12 * passes words, 16,384 places of sheet, the text's length of text, 1 of out.
 * Done: the text stands at the front of text, and out[0] is its length in bytes. No NUL is written behind it.
 * Behind the passes' lines stand three lines, (role plant attached none ambiguous edge) and the same for depot and dealer:
 * each the sum over the passes whose word 11 is that role, all 0 where there are none; fill adds to attached alone.
 * 3 is for words that no outcome has: a kind above 2, a count above 1,048,576, rounds above 64, a flag or a rim above 1,
 * a residual that is not finite; unmatched above 1,073,741,824, or not 0 without a shade; a shade of a pass that is not
 * local; a role above 2. The text's length, which 7 asks for first, is that of the words as they are; there a role above 2
 * counts as the dealer's. */
uint32_t projective_grid_write_result(
    size_t corners, size_t passes,
    const uint32_t *words, size_t words_len,
    const uint16_t *sheet, size_t sheet_len,
    uint8_t *text, size_t text_len,
    uint32_t *out, size_t out_len);

/* Writes a piece of it: whole lines from line `from` on, as long as 128 bytes are left before each. Needed: as above, but
 * 128 of text and 2 of out.
 * Done: the piece stands at the front of text, out[0] is its length in bytes and out[1] the next line. There are
 * passes + 49,156 lines, most of them empty: the first line, one for each pass (local's and its unmatched line are one), the
 * three role lines, and three for each cell. Pieces from line 0 on until that number is reached, joined, are the text.
 * 3 also where `from` is above that number. */
uint32_t projective_grid_write_result_piece(
    size_t corners, size_t passes,
    const uint32_t *words, size_t words_len,
    const uint16_t *sheet, size_t sheet_len,
    size_t from,
    uint8_t *text, size_t text_len,
    uint32_t *out, size_t out_len);

#ifdef __cplusplus
}
#endif

#endif
