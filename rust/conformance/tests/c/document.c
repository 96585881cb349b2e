/*
 * Calls every function of straightener.h on the examples of document 01 and on a few of its own, and ends
 * with status 1 if one of them answers something else.
 */
#include "straightener.h"

#include <inttypes.h>
#include <stdio.h>
#include <stdlib.h>
#include <string.h>

/* What an untouched place of a buffer holds. */
#define UNTOUCHED 12345

static int differences = 0;

/* Notes a difference by the place in this file where it was found. */
static void expect_at(int holds, int line)
{
    if (!holds) {
        printf("line %d: not as documented\n", line);
        differences = 1;
    }
}
#define expect(holds) expect_at(holds, __LINE__)

/* The place of an accepted call's answer is 0, 0. */
static int is(straightener_answer answer, uint32_t number, size_t row, size_t column, uint32_t count)
{
    return answer.number == number && answer.row == row && answer.column == column && answer.count == count;
}

/* Whether an answer tells no extremes. */
static int spans_nothing(straightener_answer answer)
{
    return answer.smallest == 0 && answer.largest == 0;
}

/* Whether an answer's extremes are those of so many samples. */
static int spans(straightener_answer answer, const int32_t *samples, size_t length)
{
    int32_t smallest = samples[0], largest = samples[0];
    size_t k;
    for (k = 1; k < length; k++) {
        smallest = samples[k] < smallest ? samples[k] : smallest;
        largest = samples[k] > largest ? samples[k] : largest;
    }
    return answer.smallest == smallest && answer.largest == largest;
}

static void fill(int32_t *buffer, size_t length)
{
    size_t k;
    for (k = 0; k < length; k++)
        buffer[k] = UNTOUCHED;
}

static int all(const int32_t *buffer, size_t first, size_t end, int32_t value)
{
    size_t k;
    for (k = first; k < end; k++)
        if (buffer[k] != value)
            return 0;
    return 1;
}

struct line_example {
    uint32_t kernel;
    int32_t d;
    size_t n;
    int32_t line[4];
    int32_t moved[4];
};

static const struct line_example examples[] = {
    {0, 2048, 2, {0, 10}, {5, 5}},
    {0, 2048, 2, {0, 1}, {1, 1}},
    {0, 2048, 2, {0, -1}, {0, 0}},
    {0, 1024, 4, {0, 0, 16, 0}, {0, 0, 12, 4}},
    {0, -1, 3, {0, 4096, 0}, {1, 4095, 0}},
    {0, 1, 3, {0, 4096, 0}, {0, 4095, 1}},
    {1, -2048, 4, {0, 0, 16, 0}, {-1, 9, 9, -1}},
    {2, 2048, 2, {0, 6}, {3, 3}},
    {0, 4096, 4, {1, 2, 3, 4}, {4, 1, 2, 3}},
    {1, 4096, 4, {1, 2, 3, 4}, {4, 1, 2, 3}},
    {2, 4096, 4, {1, 2, 3, 4}, {4, 1, 2, 3}},
    {0, 1, 1, {7}, {7}},
    {1, 1, 1, {7}, {7}},
    {2, 1, 1, {7}, {7}},
};

static void lines(void)
{
    size_t i, count = sizeof examples / sizeof examples[0];
    for (i = 0; i < count; i++) {
        const struct line_example *e = &examples[i];
        int32_t result[6], work[30];
        size_t places = straightener_line_work_places(e->n);
        straightener_answer answer;
        fill(result, 6);
        fill(work, 30);
        /* A wrapped line never looks at the background. */
        answer = straightener_move_line(e->n, e->kernel, e->d, STRAIGHTENER_WRAPPED, INT32_MIN,
                                        e->line, e->n, result, 6, work, 30);
        expect(is(answer, STRAIGHTENER_ACCEPTED, 0, 0, e->d % 4096 != 0) && spans(answer, e->moved, e->n));
        expect(memcmp(result, e->moved, e->n * sizeof result[0]) == 0);
        expect(all(result, e->n, 6, UNTOUCHED));
        expect(places == 6 * e->n && all(work, 0, places, 0) && all(work, places, 30, UNTOUCHED));
    }
    printf("lines: %zu as the document has them\n", count);
}

static void work_places(void)
{
    expect(straightener_work_places(3, 2) == 36 && straightener_work_places(2, 3) == 36);
    expect(straightener_work_places(1, 1) == 12 && straightener_work_places(1, 1024) == 12288);
    expect(straightener_work_places(0, 1) == 0 && straightener_work_places(1, 0) == 0);
    expect(straightener_work_places(1025, 1) == 0 && straightener_work_places(1, SIZE_MAX) == 0);
    expect(straightener_line_work_places(1024) == 6144 && straightener_line_work_places(1025) == 0);
    expect(straightener_line_work_places(0) == 0 && straightener_line_work_places(SIZE_MAX) == 0);
    printf("work places: %zu for 640 by 480, %zu for a line of 640\n", straightener_work_places(640, 480),
           straightener_line_work_places(640));
}

static void pictures(void)
{
    const int32_t nine[9] = {1, 2, 3, 4, 5, 6, 7, 8, 9}, four[4] = {0, 10, 0, 10};
    straightener_setting turn = {STRAIGHTENER_KEYS, 1, 1, -4096, 4096, STRAIGHTENER_WRAPPED, 0};
    straightener_setting shear = {STRAIGHTENER_LINEAR, 0, 0, 2048, 0, STRAIGHTENER_WRAPPED, 0};
    int32_t r[9], s[4], work[36];
    straightener_answer turned = straightener_straighten(3, 3, turn, nine, 9, r, 9, work, 36);
    straightener_answer sheared = straightener_straighten(2, 2, shear, four, 4, s, 4, work, 36);
    expect(turned.number == 0 && sheared.number == 0 && all(work, 0, 36, 0));
    expect(spans(turned, r, 9) && turned.smallest == 1 && spans(sheared, s, 4) && sheared.largest == 10);
    printf("pictures: %d%d%d %d%d%d %d%d%d, count %u; %d %d %d %d, count %u\n", (int)r[0], (int)r[1], (int)r[2],
           (int)r[3], (int)r[4], (int)r[5], (int)r[6], (int)r[7], (int)r[8], (unsigned)turned.count,
           (int)s[0], (int)s[1], (int)s[2], (int)s[3], (unsigned)sheared.count);
}

/* A picture, and the same with 1,000 added to every sample and to the background: under linear and Keys every
 * sample of the result is 1,000 higher, under the spline to within 13 units. */
static void added(void)
{
    enum { WIDTH = 8, HEIGHT = 6, PLACES = WIDTH * HEIGHT, ADDED = 1000, BACKGROUND = -2500 };
    int32_t picture[PLACES], higher[PLACES], r[PLACES], h[PLACES], work[12 * WIDTH];
    uint32_t kernel, border;
    int k, range[3] = {0, 0, 0}, beyond[3] = {0, 0, 0};
    for (k = 0; k < PLACES; k++) {
        picture[k] = k % 5 == 0 ? -2000 : 2000;
        higher[k] = picture[k] + ADDED;
    }
    for (kernel = 0; kernel <= STRAIGHTENER_SPLINE; kernel++)
        for (border = 0; border < 2; border++) {
            int nearly = kernel == STRAIGHTENER_SPLINE ? 13 : 0;
            straightener_setting s = {kernel, 3, 2, 700, -900, border, BACKGROUND}, t = s;
            straightener_answer lower, upper;
            t.background += ADDED;
            lower = straightener_straighten(WIDTH, HEIGHT, s, picture, PLACES, r, PLACES, work, 12 * WIDTH);
            upper = straightener_straighten(WIDTH, HEIGHT, t, higher, PLACES, h, PLACES, work, 12 * WIDTH);
            expect(lower.number == 0 && is(upper, 0, 0, 0, lower.count));
            expect(abs(upper.smallest - (lower.smallest + ADDED)) <= nearly);
            expect(abs(upper.largest - (lower.largest + ADDED)) <= nearly);
            for (k = 0; k < PLACES; k++)
                expect(abs(h[k] - (r[k] + ADDED)) <= nearly);
            range[kernel] += lower.smallest >= (border ? BACKGROUND : -2000) && lower.largest <= 2000;
            beyond[kernel] += lower.largest > 2000;
        }
    expect(range[0] == 2 && beyond[1] == 2 && beyond[2] == 2);
    printf("1000 added to all: linear keeps its range, Keys and the spline overshoot\n");
}

/* Whether a ticket has this size and count, and the setting s, field by field. */
static int holds(straightener_ticket t, size_t width, size_t height, uint32_t count, straightener_setting s)
{
    return t.width == width && t.height == height && t.count == count && t.setting.kernel == s.kernel &&
           t.setting.cx == s.cx && t.setting.cy == s.cy && t.setting.a == s.a && t.setting.b == s.b &&
           t.setting.border == s.border && t.setting.background == s.background;
}

static void tickets(void)
{
    const int32_t picture[6] = {10, 20, 30, 40, 50, 60}, anew[6] = {60, 50, 40, 30, 20, 10}, bad[6] = {0, 0, 0, 0, -32768, 0};
    straightener_setting s = {STRAIGHTENER_SPLINE, 1, 1, 700, -900, 8, -50};
    int32_t r[8], single[8], work[40];
    straightener_asked asked, refused;
    straightener_answer told, committed;
    uint32_t lines;
    fill(r, 8);
    fill(single, 8);
    fill(work, 40);
    asked = straightener_ask(3, 2, s, picture, 6, r, 8, work, 40);
    expect(asked.number == STRAIGHTENER_ACCEPTED && asked.row == 0 && asked.column == 0);
    expect(holds(asked.ticket, 3, 2, 4, s) && all(r, 0, 8, UNTOUCHED) && all(work, 0, 40, UNTOUCHED));
    refused = straightener_ask(3, 2, s, bad, 6, r, 8, work, 40);
    expect(refused.number == STRAIGHTENER_REFUSED_SAMPLE && refused.row == 1 && refused.column == 1);
    expect(holds(refused.ticket, 0, 0, 0, s));
    committed = straightener_commit(refused.ticket, 3, 2, picture, 6, r, 8, work, 40);
    expect(is(committed, STRAIGHTENER_REFUSED_TICKET, 0, 0, 0) && spans_nothing(committed));
    expect(is(straightener_commit(asked.ticket, 2, 3, picture, 6, r, 8, work, 40), 14, 0, 0, 0));
    expect(is(straightener_commit(asked.ticket, 3, 2, bad, 6, r, 8, work, 40), 6, 1, 1, 0));
    expect(is(straightener_commit(asked.ticket, 2, 3, picture, 5, r, 8, work, 40), 2, 0, 0, 0));
    expect(is(straightener_commit(refused.ticket, 0, 0, NULL, 0, NULL, 0, NULL, 0), 1, 0, 0, 0));
    expect(all(r, 0, 8, UNTOUCHED) && all(work, 0, 40, UNTOUCHED));
    lines = asked.ticket.count;
    asked.ticket.count = 77;
    told = straightener_straighten(3, 2, s, anew, 6, single, 8, work, 40);
    fill(work, 40);
    committed = straightener_commit(asked.ticket, 3, 2, anew, 6, r, 8, work, 40);
    expect(is(committed, 0, 0, 0, told.count) && spans(committed, r, 6) && memcmp(r, single, sizeof r) == 0);
    expect(all(work, 0, 36, 0) && all(work, 36, 40, UNTOUCHED));
    printf("tickets: %u lines asked, %u committed\n", (unsigned)lines, (unsigned)committed.count);
}

/* Whether a forecast tells just this, with row and column 0. */
static int tells(straightener_forecast_answer f, uint32_t number, size_t work, uint32_t count, int32_t bound)
{
    return f.number == number && f.row == 0 && f.column == 0 && f.work == work && f.count == count && f.bound == bound;
}

static void forecasts(void)
{
    const int32_t picture[6] = {100, -100, 0, 100, -100, 0};
    straightener_setting s = {STRAIGHTENER_KEYS, 1, 1, 700, -900, STRAIGHTENER_WRAPPED, -32768};
    straightener_setting grey = straightener_with_border(s, STRAIGHTENER_ON_BACKGROUND, -200);
    straightener_forecast_answer told = straightener_forecast(3, 2, s, 100);
    straightener_answer answer;
    int32_t r[6], work[36];
    expect(tells(told, STRAIGHTENER_ACCEPTED, 36, 4, 195));
    expect(tells(straightener_forecast(3, 2, straightener_with_kernel(s, STRAIGHTENER_LINEAR), 100), 0, 36, 4, 100));
    expect(tells(straightener_forecast(3, 2, straightener_with_kernel(s, STRAIGHTENER_SPLINE), 100), 0, 36, 4, 2700));
    expect(tells(straightener_forecast(3, 2, grey, 100), 0, 36, 4, 391));
    expect(tells(straightener_forecast(1024, 1024, straightener_with_centre(s, 0, 0), 32767), 0, 12288, 3069, 63999));
    expect(tells(straightener_forecast(3, 2, s, 32768), STRAIGHTENER_REFUSED_SAMPLE, 0, 0, 0));
    expect(tells(straightener_forecast(3, 2, s, UINT32_MAX), STRAIGHTENER_REFUSED_SAMPLE, 0, 0, 0));
    expect(tells(straightener_forecast(3, 2, straightener_with_border(s, 7, 32768), 32768), 12, 0, 0, 0));
    expect(tells(straightener_forecast(SIZE_MAX, 2, s, 100), STRAIGHTENER_REFUSED_SIZE, 0, 0, 0));
    fill(r, 6);
    fill(work, 36);
    answer = straightener_straighten(3, 2, s, picture, 6, r, 6, work, told.work - 1);
    expect(is(answer, STRAIGHTENER_REFUSED_BUFFER, 0, 0, 0) && all(r, 0, 6, UNTOUCHED));
    answer = straightener_straighten(3, 2, s, picture, 6, r, 6, work, told.work);
    expect(is(answer, 0, 0, 0, told.count) && answer.smallest >= -told.bound && answer.largest <= told.bound);
    printf("forecast: %u work places, %u lines, samples from %d to %d\n", (unsigned)told.work, (unsigned)told.count,
           (int)-told.bound, (int)told.bound);
}

/* The slices of a block of 3 by 2 by 4 in one plane: their columns, their rows and how many they are, and how many
 * places lie from one column, row and slice to the next. */
struct plane_example {
    size_t columns, rows, slices;
    size_t right, down, on;
};

static const struct plane_example planes[] = {
    {3, 2, 4, 1, 3, 6}, /* across and down */
    {3, 4, 2, 1, 6, 3}, /* across and depth */
    {2, 4, 3, 3, 6, 1}, /* down and depth */
};

/* Holds every slice of a straightened block to the single call on it, and answers the sum of their counts. */
static uint32_t slices(const struct plane_example *p, straightener_setting s, const int32_t *block, const int32_t *r)
{
    size_t slice, k, places = p->columns * p->rows;
    uint32_t count = 0;
    for (slice = 0; slice < p->slices; slice++) {
        int32_t picture[12], single[12], work[48];
        straightener_answer answer;
        for (k = 0; k < places; k++)
            picture[k] = block[slice * p->on + k / p->columns * p->down + k % p->columns * p->right];
        answer = straightener_straighten(p->columns, p->rows, s, picture, places, single, places, work, 48);
        expect(answer.number == STRAIGHTENER_ACCEPTED);
        for (k = 0; k < places; k++)
            expect(r[slice * p->on + k / p->columns * p->down + k % p->columns * p->right] == single[k]);
        count += answer.count;
    }
    return count;
}

static void blocks(void)
{
    straightener_setting s = {STRAIGHTENER_SPLINE, 1, 1, 700, -900, 8, -50};
    const size_t work_places[] = {36, 48, 48};
    int32_t block[25], r[26], work[50];
    uint32_t plane, lines[3];
    size_t k;
    for (k = 0; k < 24; k++)
        block[k] = k % 5 == 0 ? -2000 : (int32_t)(100 * k);
    block[24] = INT32_MIN; /* past the block, so it is not judged */
    for (plane = 0; plane <= STRAIGHTENER_DOWN_AND_DEPTH; plane++) {
        size_t places = straightener_block_work_places(3, 2, 4, plane);
        straightener_block_answer b;
        straightener_answer told = {0};
        fill(r, 26);
        fill(work, 50);
        b = straightener_straighten_block(3, 2, 4, plane, s, block, 25, r, 26, work, 50);
        lines[plane] = slices(&planes[plane], s, block, r);
        expect(b.number == STRAIGHTENER_ACCEPTED && b.depth == 0 && b.row == 0 && b.column == 0 && b.count == lines[plane]);
        told.smallest = b.smallest;
        told.largest = b.largest;
        expect(spans(told, r, 24) && all(r, 24, 26, UNTOUCHED));
        expect(places == work_places[plane] && all(work, 0, places, 0) && all(work, places, 50, UNTOUCHED));
    }
    printf("blocks: %u lines across and down, %u across and depth, %u down and depth\n", (unsigned)lines[0],
           (unsigned)lines[1], (unsigned)lines[2]);
}

/* Whether an answer to a block is a refusal that tells nothing but its number and a place. */
static int turns_away(straightener_block_answer b, uint32_t number, size_t depth, size_t row, size_t column)
{
    return b.number == number && b.depth == depth && b.row == row && b.column == column && b.count == 0 &&
           b.smallest == 0 && b.largest == 0;
}

static void refused_blocks(void)
{
    straightener_setting s = {STRAIGHTENER_KEYS, 2, 3, 700, -900, STRAIGHTENER_WRAPPED, -32768};
    int32_t block[24] = {0}, r[24], work[48];
    straightener_block_answer b[10];
    block[10] = -32768; /* depth 1, row 1, column 1 */
    block[17] = 32768;
    fill(r, 24);
    fill(work, 48);
    /* The centre is column 2 of row 3: of the slices only those across and depth have it. */
    b[0] = straightener_straighten_block(3, 2, 4, STRAIGHTENER_ACROSS_AND_DOWN, s, block, 24, r, 24, work, 48);
    b[1] = straightener_straighten_block(3, 2, 4, STRAIGHTENER_ACROSS_AND_DEPTH, s, block, 24, r, 24, work, 48);
    b[2] = straightener_straighten_block(3, 2, 4, STRAIGHTENER_DOWN_AND_DEPTH, s, block, 24, r, 24, work, 48);
    expect(turns_away(b[0], STRAIGHTENER_REFUSED_CENTRE, 0, 0, 0) && turns_away(b[2], STRAIGHTENER_REFUSED_CENTRE, 0, 0, 0));
    expect(turns_away(b[1], STRAIGHTENER_REFUSED_SAMPLE, 1, 1, 1));
    s = straightener_with_centre(s, 1, 1);
    b[0] = straightener_straighten_block(3, 2, 4, STRAIGHTENER_ACROSS_AND_DOWN, s, block, 24, r, 24, work, 48);
    b[2] = straightener_straighten_block(3, 2, 4, STRAIGHTENER_DOWN_AND_DEPTH, s, block, 24, r, 24, work, 48);
    expect(turns_away(b[0], STRAIGHTENER_REFUSED_SAMPLE, 1, 1, 1) && turns_away(b[2], STRAIGHTENER_REFUSED_SAMPLE, 1, 1, 1));
    b[3] = straightener_straighten_block(3, 2, 4, 2, s, block, 23, r, 24, work, 48);
    b[4] = straightener_straighten_block(3, 2, 4, 2, s, block, 24, r, 23, work, 48);
    b[5] = straightener_straighten_block(3, 2, 4, 2, s, block, 24, r, 24, work, 47);
    expect(turns_away(b[3], STRAIGHTENER_REFUSED_BUFFER, 0, 0, 0) && turns_away(b[4], 2, 0, 0, 0) && turns_away(b[5], 2, 0, 0, 0));
    b[6] = straightener_straighten_block(3, 2, 4, 3, s, NULL, 0, NULL, 0, NULL, 0);
    b[7] = straightener_straighten_block(3, 2, 4, UINT32_MAX, s, block, 24, r, 24, work, 48);
    expect(turns_away(b[6], STRAIGHTENER_REFUSED_PLANE, 0, 0, 0) && turns_away(b[7], 17, 0, 0, 0));
    b[8] = straightener_straighten_block(3, 2, 129, 3, s, NULL, 0, NULL, 0, NULL, 0);
    b[9] = straightener_straighten_block(SIZE_MAX, 2, 4, 1, s, block, 24, r, 24, work, 48);
    expect(turns_away(b[8], STRAIGHTENER_REFUSED_SIZE, 0, 0, 0) && turns_away(b[9], 1, 0, 0, 0));
    expect(straightener_block_work_places(128, 1, 128, 2) == 1536 && straightener_block_work_places(128, 1, 1, 2) == 12);
    expect(straightener_block_work_places(3, 2, 129, 0) == 0 && straightener_block_work_places(3, 2, 4, 3) == 0);
    expect(all(r, 0, 24, UNTOUCHED) && all(work, 0, 48, UNTOUCHED));
}

/* Whether an explanation is a refusal that shows nothing but its number and a column. */
static int shows_nothing(straightener_explanation_answer e, uint32_t number, size_t column)
{
    size_t i;
    for (i = 0; i < 4; i++)
        if (e.terms[i].place != 0 || e.terms[i].weight != 0 || e.terms[i].value != 0 || e.terms[i].product != 0)
            return 0;
    return e.number == number && e.row == 0 && e.column == column && e.sum == 0 && e.divisor == 0 && e.quotient == 0;
}

/* Every place of document 01's lines is explained by what the document writes there, and the parts add up. */
static void explanations(void)
{
    const int64_t over[3] = {INT64_C(1) << 36, INT64_C(2) << 36, INT64_C(6) << 36};
    const int32_t bad[4] = {0, 0, 294913, 0};
    straightener_explanation_answer made = {0};
    int32_t work[30];
    size_t e, i, k;
    for (e = 0; e < sizeof examples / sizeof examples[0]; e++)
        for (k = 0; k < examples[e].n; k++) {
            const struct line_example *x = &examples[e];
            int64_t sum = 0, weights = 0;
            fill(work, 30);
            made = straightener_explain(x->n, x->kernel, x->d, k, x->line, x->n, work, 30);
            expect(made.number == STRAIGHTENER_ACCEPTED && made.row == 0 && made.column == 0);
            expect(made.quotient == x->moved[k]);
            for (i = 0; i < 4; i++) {
                straightener_term t = made.terms[i];
                sum += t.product;
                weights += t.weight;
                expect(t.place == (made.terms[0].place + i) % x->n && t.product == t.weight * t.value);
                expect(x->kernel == STRAIGHTENER_SPLINE || t.value == x->line[t.place]);
            }
            expect(sum == made.sum && weights == over[x->kernel]);
            expect(made.divisor == (x->kernel == STRAIGHTENER_SPLINE ? 16 : 1) * over[x->kernel]);
            expect(all(work, 0, 6 * x->n, 0) && all(work, 6 * x->n, 30, UNTOUCHED));
        }
    fill(work, 30);
    expect(shows_nothing(straightener_explain(4, 0, 0, 3, bad, 4, work, 30), STRAIGHTENER_REFUSED_SAMPLE, 2));
    expect(shows_nothing(straightener_explain(4, 0, 0, 4, bad, 4, work, 30), STRAIGHTENER_REFUSED_POINT, 0));
    expect(shows_nothing(straightener_explain(4, 0, 0, SIZE_MAX, bad, 4, work, 30), 7, 0));
    expect(shows_nothing(straightener_explain(2, 0, 0, 2, bad, 4, work, 30), 7, 0));
    expect(shows_nothing(straightener_explain(4, 3, 0, 4, bad, 4, work, 30), STRAIGHTENER_REFUSED_KERNEL, 0));
    expect(shows_nothing(straightener_explain(4, 3, INT32_MIN, 4, bad, 4, work, 30), STRAIGHTENER_REFUSED_SHEAR, 0));
    expect(shows_nothing(straightener_explain(4, 3, INT32_MIN, 4, bad, 4, work, 23), STRAIGHTENER_REFUSED_BUFFER, 0));
    expect(shows_nothing(straightener_explain(4, 3, INT32_MIN, 4, bad, 3, work, 30), 2, 0));
    expect(shows_nothing(straightener_explain(SIZE_MAX, 3, 0, 0, NULL, 0, NULL, 0), STRAIGHTENER_REFUSED_SIZE, 0));
    expect(all(work, 0, 30, UNTOUCHED));
    made = straightener_explain(4, STRAIGHTENER_KEYS, -2048, 3, examples[6].line, 4, work, 30);
    printf("what made a sample: %" PRId64 " / %" PRId64 " = %d\n", made.sum, made.divisor, (int)made.quotient);
}

/* The eight moves of a picture of 3 by 2. */
struct quarter_example {
    uint32_t quarter;
    size_t width, height;
    int32_t moved[6];
};

static const struct quarter_example quarters[] = {
    {STRAIGHTENER_STAY, 3, 2, {1, 2, 3, 4, 5, 6}},
    {STRAIGHTENER_CLOCKWISE, 2, 3, {4, 1, 5, 2, 6, 3}},
    {STRAIGHTENER_HALF_TURN, 3, 2, {6, 5, 4, 3, 2, 1}},
    {STRAIGHTENER_COUNTER_CLOCKWISE, 2, 3, {3, 6, 2, 5, 1, 4}},
    {STRAIGHTENER_MIRROR, 3, 2, {3, 2, 1, 6, 5, 4}},
    {STRAIGHTENER_MIRROR_CLOCKWISE, 2, 3, {6, 3, 5, 2, 4, 1}},
    {STRAIGHTENER_MIRROR_HALF_TURN, 3, 2, {4, 5, 6, 1, 2, 3}},
    {STRAIGHTENER_MIRROR_COUNTER_CLOCKWISE, 2, 3, {1, 4, 2, 5, 3, 6}},
};

/* Whether a quarter move tells just this. */
static int moves_to(straightener_quarter_answer a, uint32_t number, size_t row, size_t column, size_t width, size_t height)
{
    return a.number == number && a.row == row && a.column == column && a.width == width && a.height == height;
}

/* Whether a move is just this. */
static int is_move(straightener_quarter q, uint32_t number, uint32_t value)
{
    return q.number == number && q.value == value;
}

/* Every two moves in a row are the one that is named, and every move is taken back by its inverse. */
static void joined_moves(const int32_t *picture)
{
    uint32_t first, second;
    for (first = 0; first < 8; first++) {
        straightener_quarter back = straightener_inverse_move(first);
        expect(is_move(straightener_joined_moves(first, back.value), STRAIGHTENER_ACCEPTED, STRAIGHTENER_STAY));
        expect(is_move(straightener_joined_moves(back.value, first), STRAIGHTENER_ACCEPTED, STRAIGHTENER_STAY));
        for (second = 0; second < 8; second++) {
            straightener_quarter both = straightener_joined_moves(first, second);
            int32_t once[6], twice[6];
            straightener_quarter_answer a = straightener_quarter_move(3, 2, first, picture, 6, once, 6);
            a = straightener_quarter_move(a.width, a.height, second, once, 6, twice, 6);
            expect(both.number == STRAIGHTENER_ACCEPTED && both.value < 8);
            expect(moves_to(a, 0, 0, 0, quarters[both.value].width, quarters[both.value].height));
            expect(memcmp(twice, quarters[both.value].moved, sizeof twice) == 0);
        }
    }
}

static void refused_moves(void)
{
    int32_t picture[6] = {0, 1, 2, 3, 1048576, -1048576}, r[6];
    fill(r, 6);
    expect(is_move(straightener_joined_moves(8, 0), STRAIGHTENER_REFUSED_MOVE, 0));
    expect(is_move(straightener_joined_moves(7, UINT32_MAX), STRAIGHTENER_REFUSED_MOVE, 0));
    expect(is_move(straightener_inverse_move(7), STRAIGHTENER_ACCEPTED, 7) && is_move(straightener_inverse_move(8), 16, 0));
    expect(moves_to(straightener_quarter_move(3, 2, UINT32_MAX, picture, 6, r, 6), STRAIGHTENER_REFUSED_MOVE, 0, 0, 0, 0));
    picture[3] = 1048577;
    picture[5] = INT32_MIN;
    expect(moves_to(straightener_quarter_move(3, 2, 2, picture, 6, r, 6), STRAIGHTENER_REFUSED_SAMPLE, 1, 0, 0, 0));
    expect(moves_to(straightener_quarter_move(3, 2, 7, picture, 6, r, 6), STRAIGHTENER_REFUSED_SAMPLE, 1, 0, 0, 0));
    expect(moves_to(straightener_quarter_move(3, 2, 8, picture, 6, r, 6), STRAIGHTENER_REFUSED_MOVE, 0, 0, 0, 0));
    expect(moves_to(straightener_quarter_move(3, 2, 8, picture, 5, r, 6), STRAIGHTENER_REFUSED_BUFFER, 0, 0, 0, 0));
    expect(moves_to(straightener_quarter_move(3, 2, 8, picture, 6, r, 5), STRAIGHTENER_REFUSED_BUFFER, 0, 0, 0, 0));
    expect(moves_to(straightener_quarter_move(0, 2, 8, NULL, 0, NULL, 0), STRAIGHTENER_REFUSED_SIZE, 0, 0, 0, 0));
    expect(moves_to(straightener_quarter_move(3, SIZE_MAX, 1, picture, 6, r, 6), STRAIGHTENER_REFUSED_SIZE, 0, 0, 0, 0));
    expect(all(r, 0, 6, UNTOUCHED));
}

static void quarter_moves(void)
{
    const int32_t picture[7] = {1, 2, 3, 4, 5, 6, INT32_MIN}, nine[9] = {1, 2, 3, 4, 5, 6, 7, 8, 9};
    int32_t r[8], t[9];
    size_t i;
    for (i = 0; i < sizeof quarters / sizeof quarters[0]; i++) {
        const struct quarter_example *e = &quarters[i];
        straightener_quarter_answer a;
        fill(r, 8);
        /* What stands past the picture is not judged. */
        a = straightener_quarter_move(3, 2, e->quarter, picture, 7, r, 8);
        expect(e->quarter == i && moves_to(a, STRAIGHTENER_ACCEPTED, 0, 0, e->width, e->height));
        expect(memcmp(r, e->moved, sizeof e->moved) == 0 && all(r, 6, 8, UNTOUCHED));
    }
    joined_moves(picture);
    refused_moves();
    expect(moves_to(straightener_quarter_move(3, 3, STRAIGHTENER_CLOCKWISE, nine, 9, t, 9), 0, 0, 0, 3, 3));
    expect(moves_to(straightener_quarter_move(3, 2, STRAIGHTENER_CLOCKWISE, picture, 6, r, 8), 0, 0, 0, 2, 3));
    printf("quarter moves: %d%d%d %d%d%d %d%d%d; 3 by 2 becomes 2 by 3, %d %d %d %d %d %d\n", (int)t[0], (int)t[1],
           (int)t[2], (int)t[3], (int)t[4], (int)t[5], (int)t[6], (int)t[7], (int)t[8], (int)r[0], (int)r[1], (int)r[2],
           (int)r[3], (int)r[4], (int)r[5]);
}

/* A line, three samples across, that runs up from (14, 60) to (10, 4): a quarter turn and a step make it level. */
static void on_its_side(void)
{
    enum { WIDTH = 25, HEIGHT = 64, PLACES = WIDTH * HEIGHT, WORK = 12 * HEIGHT, LIGHT = 30000 };
    static int32_t picture[PLACES], turned[PLACES], level[PLACES], work[WORK];
    straightener_setting s = {STRAIGHTENER_LINEAR, 0, 0, 0, 0, STRAIGHTENER_ON_BACKGROUND, 0};
    straightener_quarter_answer a;
    straightener_step step = straightener_level(63 - 60, 14, 63 - 4, 10);
    size_t column;
    int k;
    for (k = 0; k < PLACES; k++)
        picture[k] = abs(14 * (k % WIDTH - 12) - (k / WIDTH - 32)) <= 21 ? LIGHT : 0;
    expect(straightener_level(14, 60, 10, 4).number == STRAIGHTENER_REFUSED_SLOPE && step.number == 0);
    a = straightener_quarter_move(WIDTH, HEIGHT, STRAIGHTENER_CLOCKWISE, picture, PLACES, turned, PLACES);
    expect(moves_to(a, STRAIGHTENER_ACCEPTED, 0, 0, HEIGHT, WIDTH));
    s = straightener_with_step(straightener_with_centre(s, a.width / 2, a.height / 2), step.value).setting;
    expect(straightener_straighten(a.width, a.height, s, turned, PLACES, level, PLACES, work, WORK).number == 0);
    for (column = 4; column < HEIGHT - 4; column++) {
        const int32_t *down = level + column;
        expect(down[12 * HEIGHT] > LIGHT - 128 && down[9 * HEIGHT] < 128 && down[15 * HEIGHT] < 128);
    }
    printf("on its side: turned, then step %d\n", (int)step.value);
}

struct background_example {
    uint32_t kernel;
    int32_t d;
    uint32_t border;
    int32_t background;
    uint32_t count;
    int32_t moved[4];
};

/* What the line 0 0 16 0 becomes on background. */
static const struct background_example backgrounds[] = {
    {STRAIGHTENER_KEYS, -2048, STRAIGHTENER_ON_BACKGROUND, 100, 1, {-7, 9, 3, 49}},
    {STRAIGHTENER_KEYS, -2048, UINT32_MAX, 100, 1, {-7, 9, 3, 49}},
    {STRAIGHTENER_LINEAR, 8192, STRAIGHTENER_ON_BACKGROUND, -5, 0, {-5, -5, 0, 0}},
    {STRAIGHTENER_SPLINE, -4096, STRAIGHTENER_ON_BACKGROUND, 32767, 0, {0, 16, 0, 32767}},
    {STRAIGHTENER_LINEAR, -16383, STRAIGHTENER_ON_BACKGROUND, -4096, 1, {-4095, -4096, -4096, -4096}},
    {STRAIGHTENER_SPLINE, 16384, STRAIGHTENER_ON_BACKGROUND, -32767, 0, {-32767, -32767, -32767, -32767}},
    {STRAIGHTENER_KEYS, -4194303, STRAIGHTENER_ON_BACKGROUND, 9, 0, {9, 9, 9, 9}},
};

static void on_background(void)
{
    const int32_t line[4] = {0, 0, 16, 0}, picture[8] = {10, 20, 30, 90, 10, 20, 30, 90};
    straightener_setting shear = {STRAIGHTENER_SPLINE, 0, 0, 4096, 0, STRAIGHTENER_WRAPPED, 0};
    int32_t r[8], work[48];
    size_t i, count = sizeof backgrounds / sizeof backgrounds[0];
    for (i = 0; i < count; i++) {
        const struct background_example *e = &backgrounds[i];
        straightener_answer answer;
        fill(r, 8);
        fill(work, 48);
        answer = straightener_move_line(4, e->kernel, e->d, e->border, e->background, line, 4, r, 8, work, 48);
        expect(is(answer, STRAIGHTENER_ACCEPTED, 0, 0, e->count) && spans(answer, e->moved, 4));
        expect(memcmp(r, e->moved, sizeof e->moved) == 0 && all(r, 4, 8, UNTOUCHED));
        expect(all(work, 0, 24, 0) && all(work, 24, 48, UNTOUCHED));
    }
    fill(r, 8);
    expect(is(straightener_straighten(4, 2, shear, picture, 8, r, 8, work, 48), 0, 0, 0, 0));
    printf("lower row: wrapped %d %d %d %d", (int)r[4], (int)r[5], (int)r[6], (int)r[7]);
    shear = straightener_with_border(shear, STRAIGHTENER_ON_BACKGROUND, -1);
    fill(work, 48);
    expect(is(straightener_straighten(4, 2, shear, picture, 8, r, 8, work, 48), 0, 0, 0, 0));
    expect(memcmp(r, picture, 4 * sizeof r[0]) == 0 && all(work, 0, 48, 0));
    printf(", on background %d %d %d %d\n", (int)r[4], (int)r[5], (int)r[6], (int)r[7]);
}

static void refusals(void)
{
    const int32_t picture[6] = {0, 1, 2, 3, 32768, 5};
    straightener_setting setting = {STRAIGHTENER_SPLINE, 2, 1, 4096, -4096, STRAIGHTENER_WRAPPED, 0};
    int32_t r[6], work[36];
    uint8_t answer[11];
    straightener_ticket ticket = {3, 1, setting, 0};
    straightener_answer sample = straightener_straighten(3, 2, setting, picture, 6, r, 6, work, 36);
    unsigned n[32];
    fill(r, 6);
    fill(work, 36);
    n[6] = straightener_straighten(3, 2, setting, picture, 6, r, 6, work, 36).number;
    expect(is(sample, STRAIGHTENER_REFUSED_SAMPLE, 1, 1, 0) && spans_nothing(sample));
    expect(spans_nothing(straightener_move_line(6, 3, 0, 0, 0, picture, 6, r, 6, work, 36)));
    setting = straightener_with_border(setting, STRAIGHTENER_ON_BACKGROUND, -32768);
    n[12] = straightener_straighten(3, 2, setting, picture, 6, r, 6, work, 36).number;
    expect(straightener_move_line(6, 0, 0, 1, 32768, picture, 6, r, 6, work, 36).number == STRAIGHTENER_REFUSED_BACKGROUND);
    expect(straightener_move_line(6, 3, 0, 1, 32768, picture, 6, r, 6, work, 36).number == STRAIGHTENER_REFUSED_KERNEL);
    setting.kernel = 3;
    n[5] = straightener_straighten(3, 2, setting, picture, 6, r, 6, work, 36).number;
    setting.a = 4097;
    n[4] = straightener_straighten(3, 2, setting, picture, 6, r, 6, work, 36).number;
    setting.cx = 3;
    ticket.setting = setting;
    n[3] = straightener_straighten(3, 2, setting, picture, 6, r, 6, work, 36).number;
    n[14] = straightener_commit(ticket, 3, 2, picture, 6, r, 6, work, 36).number;
    n[2] = straightener_straighten(3, 2, setting, NULL, 0, r, 6, work, 36).number;
    expect(straightener_straighten(3, 2, setting, picture, 6, r, 6, work, 35).number == STRAIGHTENER_REFUSED_BUFFER);
    expect(straightener_move_line(6, 0, 0, 0, 0, picture, 6, r, 6, work, 35).number == STRAIGHTENER_REFUSED_BUFFER);
    n[1] = straightener_straighten(1025, 2, setting, NULL, 0, NULL, 0, NULL, 0).number;
    n[7] = straightener_level(0, 0, 1024, 0).number;
    n[8] = straightener_level(10, 0, 10, 0).number;
    n[15] = straightener_level_checked(3, 2, 0, 0, 1, 0, 1, picture, 6).number;
    n[16] = straightener_quarter_move(3, 2, 8, picture, 6, r, 6).number;
    n[17] = straightener_straighten_block(3, 2, 1, 3, setting, NULL, 0, NULL, 0, NULL, 0).number;
    expect(straightener_answer_line((const uint8_t *)"junk", 4, answer, 11).written == 11);
    n[9] = (unsigned)(answer[1] - '0');
    expect(all(r, 0, 6, UNTOUCHED) && all(work, 0, 36, UNTOUCHED));
    printf("refusals: %u %u %u %u %u %u %u %u %u %u %u %u %u\n", n[1], n[2], n[3], n[4], n[5], n[6], n[7], n[8], n[9], n[12],
           n[14], n[15], n[17]);
    printf("a move above 7: %u\n", n[16]);
}

/* Whether a setting has these five parts, and the border 8 with background INT32_MIN. */
static int set(straightener_setting s, uint32_t kernel, size_t cx, size_t cy, int32_t a, int32_t b)
{
    return s.kernel == kernel && s.cx == cx && s.cy == cy && s.a == a && s.b == b && s.border == 8 &&
           s.background == INT32_MIN;
}

static void settings(void)
{
    straightener_setting s = {STRAIGHTENER_KEYS, 3, 4, -5, 6, 0, 0};
    s = straightener_with_border(s, 8, INT32_MIN);
    expect(set(s, 1, 3, 4, -5, 6));
    s = straightener_with_border(straightener_with_border(s, 0, 17), 8, INT32_MIN);
    expect(set(s, 1, 3, 4, -5, 6));
    expect(set(straightener_with_kernel(s, STRAIGHTENER_SPLINE), 2, 3, 4, -5, 6));
    expect(set(straightener_with_kernel(s, UINT32_MAX), UINT32_MAX, 3, 4, -5, 6));
    expect(set(straightener_with_centre(s, 320, 240), 1, 320, 240, -5, 6));
    expect(set(straightener_with_centre(s, SIZE_MAX, 0), 1, SIZE_MAX, 0, -5, 6));
    expect(set(straightener_with_centre(s, 0, SIZE_MAX), 1, 0, SIZE_MAX, -5, 6));
    expect(set(straightener_with_shears(s, 4096, -4096), 1, 3, 4, 4096, -4096));
    expect(set(straightener_with_shears(s, INT32_MIN, INT32_MAX), 1, 3, 4, INT32_MIN, INT32_MAX));
    s = straightener_with_kernel(straightener_with_centre(straightener_with_shears(s, 7, 8), 9, 10), 0);
    s = straightener_with_kernel(straightener_with_centre(straightener_with_shears(s, 11, 12), 13, 14), 2);
    expect(set(s, 2, 13, 14, 11, 12));
    s = straightener_with_border(s, STRAIGHTENER_ON_BACKGROUND, -15);
    printf("settings: kernel %u, column %zu, row %zu, shears %d and %d, border %u of %d\n", (unsigned)s.kernel,
           s.cx, s.cy, (int)s.a, (int)s.b, (unsigned)s.border, (int)s.background);
}

static void steps(void)
{
    straightener_setting setting = {7, SIZE_MAX, 5, -11, 13, 19, INT32_MAX};
    straightener_change changed = straightener_with_step(setting, 1000);
    straightener_change kept = straightener_with_step(setting, 1698);
    expect(changed.number == 0 && changed.setting.kernel == 7 && changed.setting.cx == SIZE_MAX);
    expect(changed.setting.cy == 5 && changed.setting.a == -1000 && changed.setting.b == 1887);
    expect(changed.setting.border == 19 && changed.setting.background == INT32_MAX);
    expect(kept.number == STRAIGHTENER_REFUSED_SHEAR && kept.setting.kernel == 7 && kept.setting.cx == SIZE_MAX);
    expect(kept.setting.cy == 5 && kept.setting.a == -11 && kept.setting.b == 13);
    expect(kept.setting.border == 19 && kept.setting.background == INT32_MAX);
    expect(straightener_sine(-1697).value == -2897 && straightener_sine(-1698).number == STRAIGHTENER_REFUSED_SHEAR);
    printf("steps: S(1) = %d, S(1000) = %d, S(1697) = %d\n", (int)straightener_sine(1).value,
           (int)straightener_sine(1000).value, (int)straightener_sine(1697).value);
    printf("levelling: %d, %d\n", (int)straightener_level(0, 0, 100, 1).value,
           (int)straightener_level(0, 0, 1000, 1000).value);
}

/* Whether levelling with a picture tells just this. */
static int checked(straightener_checked_step c, uint32_t number, size_t row, size_t column, int32_t step)
{
    return c.number == number && c.row == row && c.column == column && c.step == step;
}

/* The line from (0, 0) to (3, 2) looks at 9, -1, 5 and 1, the one from (1, 2) to (3, 2) at 9, 9 and 1. */
static void lines_under_points(void)
{
    int32_t picture[13] = {9, 8, 7, 6, 5, -1, 5, 2, 9, 9, 9, 1, INT32_MIN};
    straightener_checked_step first = straightener_level_checked(4, 3, 0, 0, 3, 2, 0, picture, 13);
    int32_t step = straightener_level(0, 0, 3, 2).value;
    expect(checked(first, STRAIGHTENER_REFUSED_THRESHOLD, 1, 1, 0));
    expect(checked(straightener_level_checked(4, 3, 0, 0, 3, 2, -1, picture, 13), STRAIGHTENER_ACCEPTED, 0, 0, step));
    expect(checked(straightener_level_checked(4, 3, 0, 0, 3, 2, INT32_MIN, picture, 13), 0, 0, 0, step));
    expect(checked(straightener_level_checked(4, 3, 0, 0, 3, 2, INT32_MAX, picture, 13), 15, 0, 0, 0));
    expect(checked(straightener_level_checked(4, 3, 1, 2, 3, 2, 1, picture, 12), 0, 0, 0, 0));
    expect(checked(straightener_level_checked(4, 3, 1, 2, 3, 2, 2, picture, 12), 15, 2, 3, 0));
    expect(checked(straightener_level_checked(4, 3, 0, 0, 1, 2, INT32_MAX, picture, 12), STRAIGHTENER_REFUSED_SLOPE, 0, 0, 0));
    expect(checked(straightener_level_checked(4, 3, 0, 0, 4, 2, INT32_MAX, picture, 12), STRAIGHTENER_REFUSED_POINT, 0, 0, 0));
    expect(checked(straightener_level_checked(4, 3, 0, INT32_MIN, 3, 2, 0, picture, 12), 7, 0, 0, 0));
    picture[6] = 1048577;
    expect(checked(straightener_level_checked(4, 3, 0, 0, 4, 2, 0, picture, 12), STRAIGHTENER_REFUSED_SAMPLE, 1, 2, 0));
    expect(checked(straightener_level_checked(4, 3, 0, 0, 4, 2, 0, picture, 11), STRAIGHTENER_REFUSED_BUFFER, 0, 0, 0));
    expect(checked(straightener_level_checked(SIZE_MAX, 3, 0, 0, 4, 2, 0, NULL, 0), STRAIGHTENER_REFUSED_SIZE, 0, 0, 0));
    printf("line under two points: row %zu, column %zu is below; step %d\n", first.row, first.column, (int)step);
}

static void readings(void)
{
    const int32_t picture[3] = {-64, 2176, 32768};
    uint8_t greys[4] = {9, 9, 9, 9};
    float floats[4] = {9, 9, 9, 9};
    straightener_reading_answer under = straightener_reading(3, 1, 0, 0, picture, 3);
    straightener_reading_answer level = straightener_reading(3, 1, 1, 0, picture, 3);
    straightener_reading_answer over = straightener_reading(3, 1, 2, 0, picture, 3);
    straightener_reading_answer outside = straightener_reading(3, 1, 3, 0, picture, 3);
    straightener_summary_answer summary = straightener_summary(3, 1, picture, 3);
    expect(under.kind == STRAIGHTENER_UNDER && level.kind == STRAIGHTENER_LEVEL && over.kind == STRAIGHTENER_OVER);
    expect(outside.number == STRAIGHTENER_REFUSED_POINT && outside.kind == STRAIGHTENER_LEVEL && outside.greys == 0);
    expect(is(straightener_greys_out(3, 1, picture, 3, greys, 4), 0, 0, 0, 0));
    expect(is(straightener_floats_out(3, 1, picture, 3, floats, 4), 0, 0, 0, 0));
    expect(spans_nothing(straightener_greys_out(3, 1, picture, 3, greys, 4)));
    expect(spans_nothing(straightener_floats_out(3, 1, picture, 3, floats, 4)));
    expect(greys[0] == 0 && greys[1] == 17 && greys[2] == 255 && greys[3] == 9);
    expect(floats[0] == -0.5f && floats[1] == 17 && floats[2] == 256 && floats[3] == 9);
    printf("readings: Under %g, Level %g, Over %g; darkest %g, lightest %g\n", (double)under.greys,
           (double)level.greys, (double)over.greys, (double)summary.darkest, (double)summary.lightest);
}

/* Black and white themselves are Level; one unit past them is Under or Over by 1/128 grey. */
static void video_range(void)
{
    const int32_t picture[4] = {STRAIGHTENER_BLACK - 1, STRAIGHTENER_BLACK, STRAIGHTENER_WHITE, STRAIGHTENER_WHITE + 1};
    const uint32_t kinds[4] = {STRAIGHTENER_UNDER, STRAIGHTENER_LEVEL, STRAIGHTENER_LEVEL, STRAIGHTENER_OVER};
    printf("from black to white:");
    for (size_t column = 0; column < 4; column++) {
        straightener_reading_answer reading = straightener_reading(4, 1, column, 0, picture, 4);
        expect(reading.number == 0 && reading.kind == kinds[column]);
        printf(" %g", (double)reading.greys);
    }
    printf("\n");
}

static void line_format(void)
{
    const char *line = "000000000100010000000080";
    static uint8_t answer[STRAIGHTENER_LONGEST_ANSWER];
    straightener_line_answer fits = straightener_answer_line((const uint8_t *)line, strlen(line), answer, sizeof answer);
    expect(fits.number == STRAIGHTENER_ACCEPTED && fits.written == 23 && answer[22] == '\n');
    straightener_line_answer cut = straightener_answer_line((const uint8_t *)line, strlen(line), answer, 22);
    expect(cut.number == STRAIGHTENER_REFUSED_BUFFER && cut.written == 0);
    printf("line format: %.*s", (int)fits.written, (const char *)answer);
}

int main(void)
{
    lines();
    work_places();
    pictures();
    added();
    tickets();
    forecasts();
    blocks();
    refused_blocks();
    explanations();
    quarter_moves();
    on_its_side();
    on_background();
    refusals();
    settings();
    steps();
    lines_under_points();
    readings();
    video_range();
    line_format();
    if (differences == 0)
        printf("all as documented\n");
    return differences;
}
