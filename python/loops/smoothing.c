/* Smoothing by a Gaussian: sums down the columns in 32 bits and along the rows in 64, those of the outermost neighbours
 * first, over the root of the summed squares of the weights that count. Beyond the edge is nothing.
 *
 * Some rows and columns at a time, so that the sums stay in the processor's nearest cache. */
#include "loops.h"

#include <float.h>
#include <math.h>
#include <stdbool.h>
#include <string.h>

/* So many rows and columns of an image are smoothed at a time, and rows at work have whole multiples of so many. */
enum { ROWS = 64, COLUMNS = 256, LANES = 16 };

/* An image, weights up to so many pixels on both sides with their squares, and the roots of the summed squares by row
 * and by column where all pixels around are defined. */
struct smoothing {
    const float *image;
    int64_t height, width, reach;
    int64_t top, left, rows, columns; /* the window of it that is smoothed */
    const double *weights, *squares;
    const float *down, *across;
    float *made;
};

/* Some of its rows and columns, with those within reach on all sides: counted from the first of these. What lies beyond
 * the edge is 0. */
struct tile {
    const struct smoothing *of;
    int64_t top, left;      /* where its first pixel stands in the image, or beyond */
    int64_t begin, end;     /* which of its columns the image has */
    int64_t rows, columns;  /* how many it has without those that are only within reach */
    int64_t wide;           /* from row to row */
    float *values;          /* 0 where undefined */
    float *defined;         /* 1 for each pixel, and 0 for each that is undefined */
    float *sums;            /* those down the columns */
    double *line;           /* the same, to be summed up along the row */
    int32_t *last, latest;  /* the last row so far that is undefined in each column, and in all; -1 for none */
};

static inline int64_t lesser(int64_t one, int64_t other)
{
    return one < other ? one : other;
}

static inline int64_t greater(int64_t one, int64_t other)
{
    return one > other ? one : other;
}

/* Reads a row of a tile, if the image has it. */
VECTORS
static void read_row(struct tile *it, int64_t row)
{
    const int64_t place = row * it->wide + it->begin, count = it->end - it->begin;
    if (it->top + row < 0 || it->top + row >= it->of->height)
        return;
    const float *image = it->of->image + (it->top + row) * it->of->width + (it->left + it->begin);
    float *restrict values = it->values + place, *restrict defined = it->defined + place;
    int32_t undefined = 0, *last = it->last + it->begin;
    for (int64_t x = 0; x < count; x++) {
        const bool finite = fabsf(image[x]) <= FLT_MAX;
        values[x] = finite ? image[x] : 0.0f;
        defined[x] = finite ? 1.0f : 0.0f;
        undefined += !finite;
    }
    for (int64_t x = 0; undefined && x < count; x++)
        last[x] = defined[x] == 0 ? (int32_t)row : last[x];
    it->latest = undefined ? (int32_t)row : it->latest;
}

/* The sums down some columns around a row, of values or of defined pixels. */
VECTORS
static void sum_down(const struct tile *it, const float *from, const double *weights, int64_t row, int64_t first,
                     int64_t end)
{
    const int64_t reach = it->of->reach;
    const float *own = from + row * it->wide;
    float *restrict sums = it->sums, weight = (float)weights[reach];
    double *restrict line = it->line;
    for (int64_t x = first; x < end; x++)
        sums[x] = own[x] * weight;
    for (int64_t step = reach; step > 0; step--) {
        const float *above = own - step * it->wide, *below = own + step * it->wide;
        weight = (float)weights[reach - step];
        for (int64_t x = first; x < end; x++)
            sums[x] += (above[x] + below[x]) * weight;
    }
    for (int64_t x = first; x < end; x++)
        line[x] = sums[x];
}

/* The sums along the line around some columns, with the first of which `made` begins. */
VECTORS
static void sum_along(const struct tile *it, const double *weights, int64_t first, int64_t end, float *restrict made)
{
    const int64_t reach = it->of->reach, count = end - first;
    const double *line = it->line + first;
    double sums[COLUMNS];
    for (int64_t x = 0; x < count; x++)
        sums[x] = line[x] * weights[reach];
    for (int64_t step = reach; step > 0; step--) {
        const double *before = line - step, *behind = line + step, weight = weights[reach - step];
        for (int64_t x = 0; x < count; x++)
            sums[x] += (before[x] + behind[x]) * weight;
    }
    for (int64_t x = 0; x < count; x++)
        made[x] = (float)sums[x];
}

/* Divides the sums in some columns of a row, whose pixels within reach are all defined. */
VECTORS
static void divide(const struct tile *it, int64_t row, int64_t first, int64_t end, float *restrict made)
{
    const float down = it->of->down[it->top + row], *across = it->of->across + (it->left + first);
    for (int64_t x = 0; x < end - first; x++)
        made[x] = made[x] / down / across[x];
}

/* The same beside undefined pixels, by the weights that count there. */
static void divide_beside(const struct tile *it, int64_t row, int64_t first, int64_t end, float *made)
{
    const int64_t reach = it->of->reach;
    const float *defined = it->defined + row * it->wide + first;
    float shares[COLUMNS];
    sum_down(it, it->defined, it->of->squares, row, first - reach, end + reach);
    sum_along(it, it->of->squares, first, end, shares);
    for (int64_t x = 0; x < end - first; x++)
        made[x] = defined[x] != 0 ? made[x] / sqrtf(shares[x]) : NAN;
}

/* The next column, from one on, that has an undefined pixel within reach of a row; where there is none, one that is out
 * of reach. */
static int64_t next_undefined(const struct tile *it, int64_t row, int64_t column)
{
    const int64_t reach = it->of->reach, end = it->columns + 2 * reach;
    if (it->latest < row - reach)
        return end + reach;
    while (column < end && it->last[column] < row - reach)
        column++;
    return column < end ? column : end + reach;
}

/* Smooths a row of a tile, all of whose rows within reach are read. */
static void smooth_row(const struct tile *it, int64_t row)
{
    const struct smoothing *of = it->of;
    const int64_t reach = of->reach, last = reach + it->columns;
    float *made = of->made + (it->top + row - of->top) * of->columns + (it->left + reach - of->left);
    sum_down(it, it->values, of->weights, row, 0, it->wide);
    sum_along(it, of->weights, reach, last, made);
    int64_t next = next_undefined(it, row, 0);
    for (int64_t column = reach; column < last;) {
        const int64_t first = lesser(greater(column, next - reach), last);
        int64_t end = first;
        while (next - reach <= end && end < last) {
            end = lesser(next + reach + 1, last);
            next = next_undefined(it, row, next + 1);
        }
        divide(it, row, column, first, made + (column - reach));
        if (end > first)
            divide_beside(it, row, first, end, made + (first - reach));
        column = end;
    }
}

static void smooth(struct tile *it)
{
    const int64_t reach = it->of->reach;
    memset(it->values, 0, (size_t)(it->sums - it->values) * sizeof *it->values);
    for (int64_t x = 0; x < it->wide; x++)
        it->last[x] = -1;
    for (int64_t row = 0; row < 2 * reach; row++)
        read_row(it, row);
    for (int64_t row = reach; row < reach + it->rows; row++) {
        read_row(it, row + reach);
        smooth_row(it, row);
    }
}

/* A window of an image smoothed by these weights, which has rows and columns as the image has them. `room` is for twice
 * the rows with the reach on both sides, and one more, of the columns with the reach on both sides and LANES more;
 * `line` and `last` are for one. */
LOOP void smoothed(const float *image, int64_t height, int64_t width, int64_t top, int64_t left, int64_t rows,
                   int64_t columns, const double *weights, const double *squares, int64_t reach, const float *down,
                   const float *across, float *room, double *line, int32_t *last, float *made)
{
    const struct smoothing of = {image, height, width, reach, top, left, rows, columns, weights, squares,
                                 down,  across, made};
    for (int64_t row = 0; row < rows; row += ROWS)
        for (int64_t column = 0; column < columns; column += COLUMNS) {
            struct tile it = {.of = &of, .top = top + row - reach, .left = left + column - reach, .latest = -1};
            it.rows = lesser(ROWS, rows - row), it.columns = lesser(COLUMNS, columns - column);
            it.begin = greater(0, -it.left), it.end = lesser(it.columns + 2 * reach, width - it.left);
            it.wide = (it.columns + 2 * reach + LANES - 1) / LANES * LANES;
            it.values = room, it.defined = room + (it.rows + 2 * reach) * it.wide;
            it.sums = it.defined + (it.rows + 2 * reach) * it.wide;
            it.line = line, it.last = last;
            smooth(&it);
        }
}
