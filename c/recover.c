/* Reads a frame from a file, or from standard input without one, runs its passes, and prints the result or the refusal:
 * what the proved program `recover` prints for it. Where a read or a write fails it says so on standard error and ends with
 * status 1; what was printed is then not whole. */
#include <stdio.h>
#include <string.h>

#include "projective_grid.h"

static uint8_t frame[PROJECTIVE_GRID_FRAME_BYTES + 1]; /* one more byte shows that there are too many */
static float xs[PROJECTIVE_GRID_CORNERS], ys[PROJECTIVE_GRID_CORNERS], pitches[PROJECTIVE_GRID_CORNERS];
static uint8_t shades[PROJECTIVE_GRID_CORNERS];
static uint16_t sheet[PROJECTIVE_GRID_SHEET];
static int32_t around[PROJECTIVE_GRID_BOX]; /* as the reader or the last pass left it */
static uint16_t queue[PROJECTIVE_GRID_QUEUE_PER_CORNER * PROJECTIVE_GRID_CORNERS], attached[PROJECTIVE_GRID_CORNERS];
static uint32_t passes[PROJECTIVE_GRID_PASS_WORDS * PROJECTIVE_GRID_PASSES];
static uint32_t words[PROJECTIVE_GRID_OUTCOME_WORDS * PROJECTIVE_GRID_PASSES];
static float s[PROJECTIVE_GRID_SETTINGS];
static uint8_t text[4096];

static float float_of(uint32_t bits) {
    float x;
    memcpy(&x, &bits, sizeof x);
    return x;
}

/* Runs the pass p on n corners; its outcome goes to out, the plant's whoever runs it. */
static uint32_t run_pass(const uint32_t *p, size_t n, uint32_t *out) {
    float search = float_of(p[PROJECTIVE_GRID_PASS_SEARCH]), factor = float_of(p[PROJECTIVE_GRID_PASS_FACTOR]);
    float third = float_of(p[PROJECTIVE_GRID_PASS_THIRD]);
    uint32_t rounds = p[PROJECTIVE_GRID_PASS_ROUNDS], depth = p[PROJECTIVE_GRID_PASS_DEPTH];
    if (p[PROJECTIVE_GRID_PASS_KIND] == PROJECTIVE_GRID_GROW)
        return projective_grid_extend_from_labelled(
            xs, n, ys, n, pitches, n, shades, n, sheet, PROJECTIVE_GRID_SHEET, around, PROJECTIVE_GRID_BOX, queue, 4 * n,
            attached, n, s[0], s[1], s[2], s[3], s[4], s[5], search, factor, third, out, PROJECTIVE_GRID_OUTCOME_WORDS);
    if (p[PROJECTIVE_GRID_PASS_KIND] == PROJECTIVE_GRID_FILL)
        return projective_grid_fill_grid_holes(
            xs, n, ys, n, pitches, n, shades, n, sheet, PROJECTIVE_GRID_SHEET, around, PROJECTIVE_GRID_BOX, attached, n,
            s[0], s[1], s[2], s[3], s[4], s[5], search, factor, rounds, out, PROJECTIVE_GRID_OUTCOME_WORDS);
    return projective_grid_extend_via_local_homography(
        xs, n, ys, n, pitches, n, shades, n, sheet, PROJECTIVE_GRID_SHEET, around, PROJECTIVE_GRID_BOX, attached, n,
        s[0], s[1], s[2], s[3], s[4], s[5], search, factor, rounds, third, depth, out, PROJECTIVE_GRID_OUTCOME_WORDS);
}

/* Runs the pass p, and puts its role, as the reader wrote it, over that of its outcome. */
static uint32_t run_roled(const uint32_t *p, size_t n, uint32_t *out) {
    uint32_t answer = run_pass(p, n, out);
    if (answer == PROJECTIVE_GRID_DONE)
        out[PROJECTIVE_GRID_OUTCOME_ROLE] = p[PROJECTIVE_GRID_PASS_ROLE];
    return answer;
}

/* Says on standard error what went wrong; the status of such a run. */
static int failed(const char *what) {
    fprintf(stderr, "recover: %s\n", what);
    return 1;
}

/* Whether all that was printed is written; the status of the run. */
static int written(int fine) {
    return fflush(stdout) == 0 && fine ? 0 : failed("standard output cannot be written");
}

/* Prints the result of n corners and m passes piece by piece; the status of the run. */
static int write_result(size_t n, size_t m) {
    size_t line = 0;
    while (line < m + PROJECTIVE_GRID_LINES) {
        uint32_t out[PROJECTIVE_GRID_PIECE_OUT];
        uint32_t answer = projective_grid_write_result_piece(
            n, m, words, PROJECTIVE_GRID_OUTCOME_WORDS * m, sheet, PROJECTIVE_GRID_SHEET, line, text, sizeof text, out, 2);
        if (answer != PROJECTIVE_GRID_DONE)
            return failed("a piece was refused");
        if (fwrite(text, 1, out[0], stdout) != out[0])
            return written(0);
        line = out[1];
    }
    return written(1);
}

int main(int count, char **arguments) {
    FILE *file = count > 1 ? fopen(arguments[1], "rb") : stdin;
    if (!file)
        return perror(arguments[1]), 1;
    size_t bytes = fread(frame, 1, sizeof frame, file);
    if (ferror(file))
        return failed(count > 1 ? "the file cannot be read" : "standard input cannot be read");
    uint32_t head[PROJECTIVE_GRID_READ_OUT];
    uint32_t answer = projective_grid_read_frame(
        frame, bytes, xs, PROJECTIVE_GRID_CORNERS, ys, PROJECTIVE_GRID_CORNERS, pitches, PROJECTIVE_GRID_CORNERS,
        shades, PROJECTIVE_GRID_CORNERS, sheet, PROJECTIVE_GRID_SHEET, around, PROJECTIVE_GRID_BOX,
        passes, PROJECTIVE_GRID_PASS_WORDS * PROJECTIVE_GRID_PASSES, s, PROJECTIVE_GRID_SETTINGS, head, PROJECTIVE_GRID_READ_OUT);
    if (answer != PROJECTIVE_GRID_DONE)
        return written(printf("(refused %u %u)\n", (unsigned)PROJECTIVE_GRID_NUMBER(answer), (unsigned)PROJECTIVE_GRID_LINE(answer)) > 0);
    for (size_t k = 0; k < head[1]; k++)
        if (run_roled(passes + PROJECTIVE_GRID_PASS_WORDS * k, head[0], words + PROJECTIVE_GRID_OUTCOME_WORDS * k) != PROJECTIVE_GRID_DONE)
            return failed("a pass was refused");
    return write_result(head[0], head[1]);
}
