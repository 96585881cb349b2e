/*
 * straightener.h - pictures of analyser screens straightened by three shears in whole numbers.
 *
 * The functions are in the static library libstraightener.a, which is code for x86-64 Linux and needs
 * nothing but the C library. Each function is proved to answer what is said here for every input, as
 * long as every buffer is there, has as many places as its length says, and overlaps no other buffer of
 * the call. The proof is about the functions as they are written; that the kit's compiler keeps their
 * meaning is assumed, and tested from C and Rust. straightener_words alone stands in this header, and is
 * tested and not proved.
 *
 *     cc program.c $(pkg-config --cflags --libs straightener)
 *
 * Straightening     straightener_straighten, straightener_ask, straightener_commit, straightener_forecast,
 *                   straightener_work_places, straightener_straighten_block, straightener_block_work_places,
 *                   straightener_move_line, straightener_explain, straightener_line_work_places
 * Quarter moves     straightener_quarter_move, straightener_joined_moves, straightener_inverse_move
 * Settings, steps   straightener_with_kernel, straightener_with_centre, straightener_with_shears,
 *                   straightener_with_border, straightener_with_step, straightener_sine,
 *                   straightener_level, straightener_level_checked
 * Readings          straightener_greys_out, straightener_floats_out, straightener_reading,
 *                   straightener_summary
 * Line format       straightener_answer_line
 * Refusals          straightener_words
 *
 * Pictures. A sample is a signed whole number, 128 units to one grey: 0 is grey 0, 32,640 is grey 255.
 * A picture is width times height samples, row by row; columns count to the right and rows downward,
 * both from 0. Width and height are 1 to 1,024. straightener_reading alone knows of black and white, greys
 * 16 and 235 of the video range; all else keeps to 0 and 255, or to no range.
 *
 * Blocks. A block is as many pictures as its depth, all of one width and height, one after the other. Width,
 * height and depth are 1 to 128. The sample at depth z, row y and column x, all counted from 0, is at place
 * (z * height + y) * width + x.
 *
 * Buffers. A buffer is a pointer and, after it, its length in places (not in bytes). It may be longer
 * than the call needs: later places stay as they are, and nothing that is answered or written depends on
 * them. What a result or work holds before the call does not matter either. The buffers of one call may
 * not overlap. A pointer may be NULL where its length is 0. No function keeps a pointer or any state, so
 * calls on different buffers may run at the same time.
 *
 * Refusals. Every answer that is a struct with a number may be a refusal; number 0 says that the call
 * was accepted. Of several numbers that apply, the first in the order that the function names is
 * answered. A refused call leaves every buffer untouched, and every figure of its answer but the number
 * is 0, except where it is said otherwise below. A later version may refuse under further numbers.
 */
#ifndef STRAIGHTENER_H
#define STRAIGHTENER_H

#include <stddef.h>
#include <stdint.h>

/* The version of this header, as text and as its parts. */
#define STRAIGHTENER_VERSION "0.10.0"
#define STRAIGHTENER_VERSION_MAJOR 0
#define STRAIGHTENER_VERSION_MINOR 10
#define STRAIGHTENER_VERSION_PATCH 0

#ifdef __cplusplus
extern "C" {
#endif

/* The refusal numbers. */
enum {
    STRAIGHTENER_ACCEPTED = 0,
    STRAIGHTENER_REFUSED_SIZE = 1,
    STRAIGHTENER_REFUSED_BUFFER = 2,
    STRAIGHTENER_REFUSED_CENTRE = 3,
    STRAIGHTENER_REFUSED_SHEAR = 4,
    STRAIGHTENER_REFUSED_KERNEL = 5,
    STRAIGHTENER_REFUSED_SAMPLE = 6,
    STRAIGHTENER_REFUSED_POINT = 7,
    STRAIGHTENER_REFUSED_SLOPE = 8,
    STRAIGHTENER_REFUSED_LINE = 9,
    STRAIGHTENER_REFUSED_BACKGROUND = 12,
    STRAIGHTENER_REFUSED_TICKET = 14,
    STRAIGHTENER_REFUSED_THRESHOLD = 15,
    STRAIGHTENER_REFUSED_MOVE = 16,
    STRAIGHTENER_REFUSED_PLANE = 17
};

/*
 * What a refusal number says, in words for the person at the keyboard. Any number is taken; the text
 * stays as long as the program runs.
 */
static inline const char *straightener_words(uint32_t number)
{
    switch (number) {
    case STRAIGHTENER_ACCEPTED:
        return "accepted";
    case STRAIGHTENER_REFUSED_SIZE:
        return "width, height and line length must be from 1 to 1,024, and width, height and depth of a block from 1 "
               "to 128";
    case STRAIGHTENER_REFUSED_BUFFER:
        return "a buffer is too short: a picture, result or output takes width x height places, a block or its result "
               "width x height x depth, a line its length, work its work places, and the answer to a line all of its "
               "bytes";
    case STRAIGHTENER_REFUSED_CENTRE:
        return "the centre lies outside the picture: its column must be below the width and its row below the "
               "height; for a block, below the columns and the rows of its plane";
    case STRAIGHTENER_REFUSED_SHEAR:
        return "a shear must be from -4,096 to 4,096, a step from -1,697 to 1,697, and the move of a line from "
               "-4,194,304 to 4,194,304";
    case STRAIGHTENER_REFUSED_KERNEL:
        return "the kernel must be 0 (linear), 1 (Keys) or 2 (cubic spline)";
    case STRAIGHTENER_REFUSED_SAMPLE:
        return "a sample, or the largest sample size given for a forecast, lies beyond its range, which is 32,767 "
               "units to either side of 0 for straightening, 294,912 for a single line, and 1,048,576 for readings and "
               "for levelling with a picture";
    case STRAIGHTENER_REFUSED_POINT:
        return "a point lies outside the picture, or a place beyond its line, both counted from 0; for levelling "
               "without a picture, coordinates must be from 0 to 1,023";
    case STRAIGHTENER_REFUSED_SLOPE:
        return "the second point must lie to the right of the first, and no steeper than 45 degrees from it";
    case STRAIGHTENER_REFUSED_LINE:
        return "the line must be upper-case hexadecimal digits and nothing else: 22, then 2 for each of its "
               "width x height greys, at most 4,096 greys";
    case STRAIGHTENER_REFUSED_BACKGROUND:
        return "the background must be a sample from -32,767 to 32,767, 128 units to one grey; a wrapped border "
               "has none";
    case STRAIGHTENER_REFUSED_TICKET:
        return "the width or the height differs from the ticket's: ask again about this picture; the ticket of a "
               "refused asking is of no size";
    case STRAIGHTENER_REFUSED_THRESHOLD:
        return "a sample on the line between the two points is below the threshold: the points are not on one "
               "graticule line, or the threshold is too high";
    case STRAIGHTENER_REFUSED_MOVE:
        return "the quarter move must be 0 to 3, that many clockwise quarter turns, or 4 to 7, a left-right mirror and "
               "then 0 to 3 turns";
    case STRAIGHTENER_REFUSED_PLANE:
        return "the plane must be 0 (across and down), 1 (across and depth) or 2 (down and depth)";
    default:
        return "a number that this header has no words for";
    }
}

/* The kernels: triangle, Keys' cubic convolution with a = -1/2, cubic spline. */
enum { STRAIGHTENER_LINEAR = 0, STRAIGHTENER_KEYS = 1, STRAIGHTENER_SPLINE = 2 };

/* The borders: beyond its ends a line goes on with its other end, or with background. */
enum { STRAIGHTENER_WRAPPED = 0, STRAIGHTENER_ON_BACKGROUND = 1 };

/* The planes of a block: the side that is named first has the columns of a slice, the other its rows. */
enum { STRAIGHTENER_ACROSS_AND_DOWN = 0, STRAIGHTENER_ACROSS_AND_DEPTH = 1, STRAIGHTENER_DOWN_AND_DEPTH = 2 };

/* The quarter moves: so many clockwise quarter turns, then the same after a left-right mirror. */
enum {
    STRAIGHTENER_STAY = 0,
    STRAIGHTENER_CLOCKWISE = 1,
    STRAIGHTENER_HALF_TURN = 2,
    STRAIGHTENER_COUNTER_CLOCKWISE = 3,
    STRAIGHTENER_MIRROR = 4,
    STRAIGHTENER_MIRROR_CLOCKWISE = 5,
    STRAIGHTENER_MIRROR_HALF_TURN = 6,
    STRAIGHTENER_MIRROR_COUNTER_CLOCKWISE = 7
};

/* The cases of a reading: from black to white, below black, above white. */
enum { STRAIGHTENER_LEVEL = 0, STRAIGHTENER_UNDER = 1, STRAIGHTENER_OVER = 2 };

/* Black and white of the video range (Recommendation ITU-R BT.601), as samples: greys 16 and 235. */
enum { STRAIGHTENER_BLACK = 2048, STRAIGHTENER_WHITE = 30080 };

/* The answer to a line of the line format, with its line feed, never takes more bytes than this. */
#define STRAIGHTENER_LONGEST_ANSWER 32783

/*
 * How a picture is straightened. Any values may stand in it: they are tested where it is used.
 *   kernel      0, 1 or 2
 *   cx, cy      column and row of the centre, which stays where it is; cx below the width, cy below the
 *               height, or for a block below the columns and the rows of its plane
 *   a, b        shears of the rows and of the columns, in 4,096ths, each from -4,096 to 4,096
 *   border      0 wrapped, any other number background
 *   background  the background's sample value, in units of 1/128 grey, within +-32,767; ignored where
 *               the border is wrapped
 */
typedef struct {
    uint32_t kernel;
    size_t cx;
    size_t cy;
    int32_t a;
    int32_t b;
    uint32_t border;
    int32_t background;
} straightener_setting;

/*
 * What most calls answer.
 *   number             0, or the refusal number
 *   row, column        under number 6 the place of the first sample beyond the range, else 0
 *   count              the number of lines interpolated, those that neither moved by whole samples nor
 *                      became all background; a row that is interpolated in both its passes counts twice
 *   smallest, largest  the smallest and the largest sample of the moved line or of the straightened
 *                      picture, in units of 1/128 grey; 0 where the call is refused, and from
 *                      straightener_greys_out and straightener_floats_out
 */
typedef struct {
    uint32_t number;
    size_t row;
    size_t column;
    uint32_t count;
    int32_t smallest;
    int32_t largest;
} straightener_answer;

/*
 * What straightening a block answers.
 *   number              0, or the refusal number
 *   depth, row, column  under number 6 the place of the first sample beyond the range in the order in which the
 *                       block is stored, whatever the plane; else 0
 *   count               the number of lines interpolated, as in straightener_answer, summed over the slices
 *   smallest, largest   the smallest and the largest sample of the straightened block, in units of 1/128 grey;
 *                       0 where the call is refused
 */
typedef struct {
    uint32_t number;
    size_t depth;
    size_t row;
    size_t column;
    uint32_t count;
    int32_t smallest;
    int32_t largest;
} straightener_block_answer;

/*
 * What a straightening will do. A ticket is plain numbers, which may be kept, changed or made up: a commit
 * compares its size with the one that it is given, judges its setting, and never reads its count.
 *   width, height  the size that was asked; 0 by 0 where the asking was refused
 *   setting        the setting as it was asked, also where the asking was refused
 *   count          the number of lines that will be interpolated; 0 where the asking was refused
 */
typedef struct {
    size_t width;
    size_t height;
    straightener_setting setting;
    uint32_t count;
} straightener_ticket;

/* What asking answers: number, row and column as in straightener_answer, and a ticket. */
typedef struct {
    uint32_t number;
    size_t row;
    size_t column;
    straightener_ticket ticket;
} straightener_asked;

/*
 * What every straightening of one size and setting takes and can leave.
 *   number       0, or the refusal number
 *   row, column  0, also under number 6: a forecast reads no sample
 *   work         the places of work that it takes; 0 where refused
 *   count        the number of lines that it interpolates; 0 where refused
 *   bound        no sample of its result is below -bound or above bound; 0 where refused
 */
typedef struct {
    uint32_t number;
    size_t row;
    size_t column;
    size_t work;
    uint32_t count;
    int32_t bound;
} straightener_forecast_answer;

/*
 * One term of the weighted sum that makes a sample.
 *   place    the source place in the line, counted from 0
 *   weight   its weight; straightener_explain says what the four sum to
 *   value    with kernels 0 and 1 the sample that stands there, in units of 1/128 grey; with kernel 2 the
 *            spline's coefficient, in sixteenths of such a unit
 *   product  weight times value
 */
typedef struct {
    size_t place;
    int64_t weight;
    int32_t value;
    int64_t product;
} straightener_term;

/*
 * What made one sample of a moved line; terms, sum, divisor and quotient are 0 where refused.
 *   number, row, column  as in straightener_answer
 *   terms                the four terms, in the order of the places that straightener_explain names
 *   sum                  the sum of the four products
 *   divisor              what the sum is divided by
 *   quotient             the sum over the divisor, to the nearest whole number, halves upward: the sample, in
 *                        units of 1/128 grey
 */
typedef struct {
    uint32_t number;
    size_t row;
    size_t column;
    straightener_term terms[4];
    int64_t sum;
    int64_t divisor;
    int32_t quotient;
} straightener_explanation_answer;

/*
 * What a quarter move of a picture answers.
 *   number         0, or the refusal number
 *   row, column    under number 6 the place of the first sample beyond the range, in the picture that is handed
 *                  in and not in the moved one; else 0
 *   width, height  those of the moved picture: the picture's own with moves 0, 2, 4 and 6, and the other way
 *                  round with 1, 3, 5 and 7; 0 by 0 where refused
 */
typedef struct {
    uint32_t number;
    size_t row;
    size_t column;
    size_t width;
    size_t height;
} straightener_quarter_answer;

/* A quarter move, 0 to 7, under number 0, or 0 under number 16. */
typedef struct {
    uint32_t number;
    uint32_t value;
} straightener_quarter;

/* A changed setting under number 0, or the setting as it was under number 4. */
typedef struct {
    uint32_t number;
    straightener_setting setting;
} straightener_change;

/* A step or a shear under number 0, or 0 under a refusal number. */
typedef struct {
    uint32_t number;
    int32_t value;
} straightener_step;

/*
 * What levelling with a picture answers.
 *   number       0, or the refusal number
 *   row, column  under number 6 the place of the first sample beyond the range, under number 15 the place of
 *                the leftmost sample on the line that is below the threshold, else 0
 *   step         the step; 0 where refused
 */
typedef struct {
    uint32_t number;
    size_t row;
    size_t column;
    int32_t step;
} straightener_checked_step;

/*
 * A reading at a point.
 *   number, row, column  as in straightener_answer
 *   kind                 0 Level, 1 Under, 2 Over
 *   greys                Level: the sample in greys, 16 to 235, or 0 where refused; Under: how many greys
 *                        it lies below 16; Over: how many greys it lies above 235. Exact
 */
typedef struct {
    uint32_t number;
    size_t row;
    size_t column;
    uint32_t kind;
    float greys;
} straightener_reading_answer;

/* The bytes written of an answer to a line under number 0, or 0 under number 2. */
typedef struct {
    uint32_t number;
    size_t written;
} straightener_line_answer;

/*
 * The darkest and the lightest sample of a picture, in greys, exact and held to no range;
 * number, row and column as in straightener_answer.
 */
typedef struct {
    uint32_t number;
    size_t row;
    size_t column;
    float darkest;
    float lightest;
} straightener_summary_answer;

/*
 * Straightens a picture: rows moved by a * (y - cy), columns by b * (x - cx), rows again, each in
 * 4,096ths of a sample. Wrapped, what leaves a line at one end comes in at the other. On background, a
 * line of N samples that moves by N samples or more, either way, becomes all background; one that moves
 * by less is set between N background samples on each side, and of that longer line, moved with
 * wrapping, the middle N are kept. N is the width for a row and the height for a column.
 *   width, height  1 to 1,024
 *   setting        see above
 *   picture        at least width * height places; samples within +-32,767
 *   result         at least width * height places; so many receive the straightened picture, whose
 *                  samples may lie beyond +-32,767 but never beyond the +-1,048,576 of the readings
 *   work           at least straightener_work_places(width, height) places; so many are 0 afterwards,
 *                  under either border
 * Refuses under 1, 2, 3, 4, 5, 12, 6. The count is at most 2 * (height - 1) + (width - 1). The smallest
 * and the largest sample are those of the result's width * height places.
 * Under either border no sample of the result lies further from the same three passes in exact fractions
 * than 3/2 units (kernel 0), 2 units (kernel 1) or 10 units (kernel 2) of 1/128 grey. The result is
 * exact where every line moves by whole samples, and for a picture of one grey whose border is wrapped
 * or whose background has that grey too.
 * With kernel 0 no sample of the result lies below the smallest or above the largest of the picture's
 * samples, the background being one of them where it is set: linear never overshoots. With kernels 0 and
 * 1, of two accepted calls that are alike but that the second has one number added to every sample and to
 * the background, the second's samples, smallest and largest are higher by that number; with kernel 2 its
 * samples lie within 13 units of that. Its count is the same.
 */
straightener_answer straightener_straighten(size_t width, size_t height, straightener_setting setting,
                                            const int32_t *picture, size_t picture_len,
                                            int32_t *result, size_t result_len,
                                            int32_t *work, size_t work_len);

/*
 * Asks what straightener_straighten would do with the same size, setting, picture and buffers, and writes
 * nothing. The ticket has the size, the setting and the count; the smallest and the largest sample are
 * known when the picture has been straightened.
 *   width, height, setting, picture  as for straightener_straighten
 *   result, work                     those that are to be written later: only their lengths are looked at
 * Refuses under 1, 2, 3, 4, 5, 12, 6, and then hands back a ticket of size 0 by 0 and count 0, with the
 * setting as it was asked: a commit on that ticket is refused.
 */
straightener_asked straightener_ask(size_t width, size_t height, straightener_setting setting,
                                    const int32_t *picture, size_t picture_len,
                                    const int32_t *result, size_t result_len,
                                    const int32_t *work, size_t work_len);

/*
 * Straightens a picture as straightener_straighten does, with the setting of a ticket.
 *   ticket                 what straightener_ask handed back, or any other
 *   width, height          the size of the picture that is handed in, 1 to 1,024
 *   picture, result, work  as for straightener_straighten
 * Refuses under 1, 2, 14, 3, 4, 5, 12, 6, where 14 is a width or height other than the ticket's. Everything
 * is judged again: the size, the picture and the buffers as they are handed in here, whatever they held when
 * it was asked, and the ticket's setting. The count is worked out anew, whatever the ticket says. So on a
 * ticket of the size that is handed in this is straightener_straighten with the ticket's setting, and the
 * distances named there are from the exact passes over the picture that is handed in here.
 */
straightener_answer straightener_commit(straightener_ticket ticket, size_t width, size_t height,
                                        const int32_t *picture, size_t picture_len,
                                        int32_t *result, size_t result_len,
                                        int32_t *work, size_t work_len);

/*
 * Tells what every straightening of one size and setting takes and can leave, before there is a picture: for
 * programs that hand out memory and time.
 *   width, height  1 to 1,024
 *   setting        as for straightener_straighten
 *   largest        the largest size of a sample: those of the picture will lie from -largest to largest; at
 *                  most 32,767
 * Refuses under 1, 3, 4, 5, 12, 6, where 6 is a largest over 32,767. The bound is largest with kernel 0, 27
 * times largest with kernel 2, and with kernel 1 three times over (5 * largest + 2) / 4, rounded down. Where
 * the background is further from 0 than largest, its distance stands in the place of largest.
 * Every straightener_straighten and straightener_commit with that size and setting that is accepted answers
 * just that count; of a picture whose samples lie from -largest to largest it leaves no sample, and tells no
 * smallest or largest, below -bound or above bound. With one place of work less than that it is refused under
 * 2; with just that work such a picture is straightened, if picture and result have their places, and a ticket
 * that size.
 */
straightener_forecast_answer straightener_forecast(size_t width, size_t height,
                                                   straightener_setting setting, uint32_t largest);

/*
 * The places of work that straightener_straighten takes, and so straightener_ask and straightener_commit:
 * 12 for each sample of the longer side, or 0 for a width or height that they refuse. Nothing is refused.
 */
size_t straightener_work_places(size_t width, size_t height);

/*
 * Straightens every slice of a block in one plane, each as straightener_straighten does a picture.
 *   width, height, depth  1 to 128 each
 *   plane                 0 across and down: a slice for each depth, of width columns and height rows
 *                         1 across and depth: a slice for each row, of width columns and depth rows
 *                         2 down and depth: a slice for each column, of height columns and depth rows
 *   setting               the same for all slices: cx is below a slice's columns and cy below its rows, a is
 *                         the shear of its rows and b that of its columns
 *   block                 at least width * height * depth places; samples within +-32,767
 *   result                at least width * height * depth places; so many receive the straightened block,
 *                         stored as the block is
 *   work                  at least straightener_block_work_places(width, height, depth, plane) places; so many
 *                         are 0 afterwards, under either border
 * Refuses under 1, 17, 2, 3, 4, 5, 12, 6, where 1 is a side of 0 or over 128 and 17 a plane other than the
 * three. All samples are judged before anything is written.
 * Every slice of the result is what straightener_straighten leaves for that slice of the block, handed in as a
 * picture of its columns and rows with the same setting; so what is said there of the samples, such as their
 * distance from exact fractions, holds for each slice. The count is the sum of the slices' counts, and the
 * smallest and the largest sample are those of the result's width * height * depth places.
 */
straightener_block_answer straightener_straighten_block(size_t width, size_t height, size_t depth,
                                                        uint32_t plane, straightener_setting setting,
                                                        const int32_t *block, size_t block_len,
                                                        int32_t *result, size_t result_len,
                                                        int32_t *work, size_t work_len);

/*
 * The places of work that straightener_straighten_block takes: 12 for each sample of the longer of the plane's
 * two sides, or 0 for a width, height, depth or plane that it refuses. Nothing is refused.
 */
size_t straightener_block_work_places(size_t width, size_t height, size_t depth, uint32_t plane);

/*
 * Moves one line.
 *   n           samples of the line, 1 to 1,024
 *   kernel      0, 1 or 2
 *   d           the move in 4,096ths of a sample, toward higher places if positive; within +-4,194,304
 *   border      0 wrapped, any other number background
 *   background  the background's sample value, in units of 1/128 grey, within +-32,767; ignored where
 *               the border is wrapped
 *   line        at least n places; samples within +-294,912
 *   result      at least n places; so many receive the moved line, whose samples may lie beyond
 *               +-294,912 where Keys or the spline overshoots
 *   work        at least straightener_line_work_places(n) places; so many are 0 afterwards, under either
 *               border
 * Refuses under 1, 2, 4, 5, 12, 6 (with row 0). The count is 1 if the line was interpolated, 0 if it moved
 * by whole samples or, on background, by n samples or more either way, which makes it all background. The
 * smallest and the largest sample are those of the result's n places: where they lie beyond every sample
 * of the line, and beyond the background, the kernel has overshot, which linear never does. With kernels
 * 0 and 1, of two accepted calls that are alike but that the second has one number added to every sample
 * and to the background, the second's samples, smallest and largest are higher by that number; with kernel
 * 2 its samples lie within 1 unit of that. Its count is the same.
 */
straightener_answer straightener_move_line(size_t n, uint32_t kernel, int32_t d,
                                           uint32_t border, int32_t background,
                                           const int32_t *line, size_t line_len,
                                           int32_t *result, size_t result_len,
                                           int32_t *work, size_t work_len);

/*
 * Shows what made one sample of a line that is moved with wrapping: the four places that it comes from, with their
 * weights and what stands there, the weighted sum, the divisor and the rounded quotient. The quotient is the sample
 * that straightener_move_line writes at place k for the same n, kernel, d and line where the border is wrapped, and
 * every place of a line that it moves has its explanation.
 *   n       samples of the line, 1 to 1,024
 *   kernel  0, 1 or 2
 *   d       the move in 4,096ths of a sample, toward higher places if positive; within +-4,194,304
 *   k       the place in the moved line, counted from 0, so below n
 *   line    at least n places; samples within +-294,912
 *   work    at least straightener_line_work_places(n) places; so many are 0 afterwards
 * Refuses under 1, 2, 4, 5, 7, 6 (with row 0), where 7 is a k that is not below n.
 * With f for -d modulo 4,096 and q for (-d - f)/4,096 the places are k + q - 1, k + q, k + q + 1 and k + q + 2,
 * each modulo n, so that one can come up more than once. The weights are the kernel's at f; they sum to 4096^3
 * times 1, 2 or 6 with kernel 0, 1 or 2. The divisor is that sum, and with kernel 2 sixteen times it.
 */
straightener_explanation_answer straightener_explain(size_t n, uint32_t kernel, int32_t d, size_t k,
                                                     const int32_t *line, size_t line_len,
                                                     int32_t *work, size_t work_len);

/*
 * The places of work that straightener_move_line and straightener_explain take: 6 for each of the n samples, or 0
 * for an n that they refuse. Nothing is refused.
 */
size_t straightener_line_work_places(size_t n);

/*
 * Moves a picture by quarter turns and a mirror, each sample to a place of its own and none of them changed: for
 * cameras that are mounted sideways or look into a mirror.
 *   width, height  those of the picture that is handed in, 1 to 1,024
 *   quarter        0 to 3: that many clockwise quarter turns; 4 to 7: a left-right mirror, then 0 to 3 turns
 *   picture        at least width * height places; samples within +-1,048,576
 *   result         at least width * height places; so many receive the moved picture, row by row in its own width
 * Refuses under 1, 2, 16, 6, where 16 is a quarter above 7. All samples are judged before anything is written.
 * The sample at column x and row y goes to this column and row of the moved picture, and the upper left corner to
 * this corner:
 *   0  stays                                x, y                           upper left
 *   1  a quarter turn clockwise             height - 1 - y, x              upper right
 *   2  a half turn                          width - 1 - x, height - 1 - y  lower right
 *   3  a quarter turn counter-clockwise     y, width - 1 - x               lower left
 *   4  left and right exchanged             width - 1 - x, y               upper right
 *   5  that, then a quarter turn clockwise  height - 1 - y, width - 1 - x  lower right
 *   6  top and bottom exchanged             x, height - 1 - y              lower left
 *   7  rows and columns exchanged           y, x                           upper left
 * Two moves in a row, the second of what the first left and with the width and height that it answered, leave what
 * the one move leaves that straightener_joined_moves names. A move and then its inverse leave the picture.
 * What a move leaves may be straightened like any picture whose samples lie within +-32,767: with the width and
 * height that the move answered, and a centre in the moved picture. The distances that straightener_straighten names
 * are then from the exact passes over the moved picture. So a graticule line in any direction can be made level: by
 * the turn that makes it run to the right, no steeper than 45 degrees, and the step that straightener_level answers
 * for its points as they were moved.
 */
straightener_quarter_answer straightener_quarter_move(size_t width, size_t height, uint32_t quarter,
                                                      const int32_t *picture, size_t picture_len,
                                                      int32_t *result, size_t result_len);

/*
 * The one move that equals two in a row, of any picture: an entry of a table of eight by eight.
 *   first   the move that is made first, 0 to 7: the row of the table
 *   second  the move that is made of what the first left, 0 to 7: the column of the table
 * Refuses under 16, where either is above 7.
 */
straightener_quarter straightener_joined_moves(uint32_t first, uint32_t second);

/*
 * The move that takes a move back, made before it or after it: 3 for 1, 1 for 3, and every other move itself.
 *   quarter  0 to 7
 * Refuses under 16, where it is above 7.
 */
straightener_quarter straightener_inverse_move(uint32_t quarter);

/*
 * The setting with one part changed, to what is handed in, and the others kept. Nothing is refused.
 *   kernel      the kernel: 0, 1 or 2
 *   cx, cy      the centre: its column, then its row, both counted from 0
 *   a, b        the shears, of the rows and then of the columns, in 4,096ths
 *   border      the border: 0 wrapped, any other number background
 *   background  the background's sample value, in units of 1/128 grey; kept, and ignored, where wrapped
 */
straightener_setting straightener_with_kernel(straightener_setting setting, uint32_t kernel);
straightener_setting straightener_with_centre(straightener_setting setting, size_t cx, size_t cy);
straightener_setting straightener_with_shears(straightener_setting setting, int32_t a, int32_t b);
straightener_setting straightener_with_border(straightener_setting setting, uint32_t border,
                                              int32_t background);

/*
 * The setting with the shears of step t, a = -t and b = S(t), and the rest kept.
 *   t  4,096 times the tangent of half the angle, from -1,697 to 1,697; a positive step levels a
 *      graticule line that rises to the right
 * Refuses under 4, and hands the setting back as it was.
 */
straightener_change straightener_with_step(straightener_setting setting, int32_t t);

/*
 * S(t): the whole number nearest 2 * 4096^2 * t / (4096^2 + t^2), in 4,096ths.
 *   t  from -1,697 to 1,697
 * Refuses under 4.
 */
straightener_step straightener_sine(int32_t t);

/*
 * The step that levels the graticule line through two points on it.
 *   x1, y1  column and row of the left point, each from 0 to 1,023
 *   x2, y2  column and row of the right point, each from 0 to 1,023
 * Refuses under 7, 8; 8 is where x2 - x1 is below 1 or |y2 - y1| is above it, which is 45 degrees. A line in any
 * other direction is first to be turned by straightener_quarter_move.
 */
straightener_step straightener_level(int32_t x1, int32_t y1, int32_t x2, int32_t y2);

/*
 * The step that straightener_level answers, where no sample on the line through the two points is below a
 * threshold: for points that may have been set on a trace, or beside the graticule, by mistake. In every column
 * x from x1 to x2, both included, the sample in row (2 * (y1 * dx + dy * (x - x1)) + dx) / (2 * dx), rounded
 * down, is looked at, where dx is x2 - x1 and dy is y2 - y1: the row nearest to the line, of two that are as
 * near the lower on the screen. It lies between y1 and y2.
 *   width, height  1 to 1,024
 *   x1, y1         column and row of the left point; the column below the width, the row below the height
 *   x2, y2         column and row of the right point, within the picture likewise
 *   threshold      any number, in units of 1/128 grey; INT32_MIN refuses no line, and with INT32_MAX every one
 *                  is refused
 *   picture        at least width * height places; samples within +-1,048,576
 * Refuses under 1, 2, 6, 7, 8, 15, where 7 is a point outside this picture, 8 is as for straightener_level, and
 * 15 is a sample on the line that is below the threshold: refused under no other number, the call is refused
 * under 15 just where there is one, and names the leftmost. Every sample of the picture is judged for 6, also
 * those beside the line.
 */
straightener_checked_step straightener_level_checked(size_t width, size_t height,
                                                     int32_t x1, int32_t y1, int32_t x2, int32_t y2,
                                                     int32_t threshold,
                                                     const int32_t *picture, size_t picture_len);

/*
 * Turns samples into greys: (v + 64)/128 rounded down, held to 0 to 255 and not to 16 to 235.
 *   width, height  1 to 1,024
 *   picture        at least width * height places; samples within +-1,048,576
 *   greys          at least width * height places; so many receive the greys
 * Refuses under 1, 2, 6. The count, the smallest and the largest are 0.
 */
straightener_answer straightener_greys_out(size_t width, size_t height,
                                           const int32_t *picture, size_t picture_len,
                                           uint8_t *greys, size_t greys_len);

/*
 * Turns samples into greys as floats: v/128, exact, held to no range.
 *   width, height  1 to 1,024
 *   picture        at least width * height places; samples within +-1,048,576
 *   floats         at least width * height places; so many receive the floats
 * Refuses under 1, 2, 6. The count, the smallest and the largest are 0.
 */
straightener_answer straightener_floats_out(size_t width, size_t height,
                                            const int32_t *picture, size_t picture_len,
                                            float *floats, size_t floats_len);

/*
 * Reads one sample v of a picture: Under by (2,048 - v)/128 greys where v is below 2,048, black; Over by
 * (v - 30,080)/128 greys where v is above 30,080, white; else, black and white included, Level v/128.
 *   width, height  1 to 1,024
 *   column, row    the point; column below the width, row below the height
 *   picture        at least width * height places; samples within +-1,048,576
 * Refuses under 1, 2, 6, 7. A refused reading is Level 0, which no sample reads: a sample of 0 is Under 16.
 * Every sample of the picture is judged, also those beside the point.
 */
straightener_reading_answer straightener_reading(size_t width, size_t height, size_t column, size_t row,
                                                 const int32_t *picture, size_t picture_len);

/*
 * The darkest and the lightest grey of a picture.
 *   width, height  1 to 1,024
 *   picture        at least width * height places; samples within +-1,048,576
 * Refuses under 1, 2, 6.
 */
straightener_summary_answer straightener_summary(size_t width, size_t height,
                                                 const int32_t *picture, size_t picture_len);

/*
 * Answers one line of the line format, as the line program does.
 *   line    the whole line, without its line feed: upper-case hexadecimal, kernel 2 digits, step 4
 *           (two's complement), width, height, cx, cy 4 each, then 2 digits for each of width * height
 *           greys, at most 4,096
 *   answer  receives the answer with its line feed: 00, count 4 digits, width 4, height 4 and 8 digits
 *           a sample (two's complement); or, refused, the number in 2 digits, row in 4, column in 4
 * Refuses under 2 where the answer is longer than answer_len; STRAIGHTENER_LONGEST_ANSWER places always
 * suffice. A line that is refused is answered all the same, under number 0: its own number stands in the
 * answer's text, 9 for a line that is not well-formed, else the first of 1, 3, 4, 5 that applies.
 */
straightener_line_answer straightener_answer_line(const uint8_t *line, size_t line_len,
                                                  uint8_t *answer, size_t answer_len);

#ifdef __cplusplus
}
#endif

#endif
