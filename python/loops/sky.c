/* The sky of an image by the cells of a mesh: what lies between their centres, and what a row of them holds beside
 * sources. */
#include <float.h>
#include <math.h>
#include <string.h>

#include "loops.h"
#include "masks.h"

/* ---- between the centres of cells */

/* The numbers of a mesh's cells. */
struct grid {
    const double *numbers;
    int64_t rows, columns, mesh;
};

/* The numbers at a row of pixels, linear between the cells' centres and on in a straight line beyond the outermost; and
 * so one more at both ends. The grid has two columns or more. */
static inline void row_at(const struct grid *grid, int64_t y, double *restrict found)
{
    double at = ((double)y + 0.5) / (double)grid->mesh - 0.5, lower = floor(at);
    int64_t last = grid->rows > 1 ? grid->rows - 2 : 0;
    int64_t before = lower > 0 ? lower < (double)last ? (int64_t)lower : last : 0;
    int64_t after = before + 1 < grid->rows ? before + 1 : before, columns = grid->columns;
    double part = at - (double)before;
    const double *above = grid->numbers + before * columns, *below = grid->numbers + after * columns;
    for (int64_t cell = 0; cell < columns; cell++)
        found[cell + 1] = above[cell] * (1 - part) + below[cell] * part;
    found[0] = 2 * found[1] - found[2];
    found[columns + 1] = 2 * found[columns] - found[columns - 1];
}

/* What is made of a level with a number added: itself; or of a pixel less that number and then less the level; or less
 * both together, times a factor, or a factor over the pixel's noise. */
enum { LEVEL, LEFT, SCALED, OVER_NOISE };

struct making {
    int32_t kind;
    const float *pixels, *noises;
    float added, times;
    float *made;
};

/* That of some pixels of a row from this one on, between two centres: the level goes on by parts of a step. */
static inline void go_on(const struct making *making, float first, float step, const float *restrict part, int64_t at,
                         int64_t count)
{
    const float *restrict pixels = making->pixels + at, *restrict noises = making->noises + at;
    const float added = making->added, times = making->times;
    float *restrict made = making->made + at;
    if (making->kind == LEVEL)
        for (int64_t x = 0; x < count; x++)
            made[x] = step * part[x] + first + added;
    else if (making->kind == LEFT)
        for (int64_t x = 0; x < count; x++)
            made[x] = pixels[x] - added - (step * part[x] + first);
    else if (making->kind == SCALED)
        for (int64_t x = 0; x < count; x++)
            made[x] = (pixels[x] - (step * part[x] + first + added)) * times;
    else
        for (int64_t x = 0; x < count; x++)
            made[x] = (pixels[x] - (step * part[x] + first + added)) * (times / noises[x]);
}

/* What is made of the levels at the pixels of a window whose columns lie within the grid. Between two centres a row
 * changes by the same step from pixel to pixel; the first piece ends at the first centre. There is room for a row of the
 * grid and two more. */
VECTORS LOOP void between_centres(const double *numbers, int64_t rows, int64_t columns, int64_t mesh, const float *part,
                                  int64_t top, int64_t left, int64_t height, int64_t width, int32_t kind,
                                  const float *pixels, const float *noises, double added, double times, double *room,
                                  float *made)
{
    if (rows < 1 || columns < 2 || mesh < 1 || left < 0 || width > columns * mesh - left)
        return;
    const struct grid grid = {numbers, rows, columns, mesh};
    const struct making making = {kind, pixels, noises, (float)added, (float)times, made};
    for (int64_t y = 0; y < height; y++) {
        row_at(&grid, top + y, room);
        int64_t piece = (left + mesh - mesh / 2) / mesh, begin = piece * mesh + mesh / 2 - mesh - left;
        for (; begin < width; begin += mesh, piece++) {
            int64_t from = begin > 0 ? begin : 0, end = begin + mesh < width ? begin + mesh : width;
            /* A zero has no sign, nor has one to which it is added. */
            float first = (float)room[piece] + 0.0f, step = (float)(room[piece + 1] - room[piece]);
            go_on(&making, first, step, part + (from - begin), y * width + from, end - from);
        }
    }
}

/* ---- the second look at a row of cells: sums over 3 by 3 pixels in units of the noise */

/* Which numbers of a row are finite; the others become 0. */
static inline void keep_finite(float *restrict row, int64_t width, uint8_t *restrict finite)
{
    for (int64_t x = 0; x < width; x++) {
        float value = row[x];
        int is_finite = fabsf(value) <= FLT_MAX;
        row[x] = is_finite ? value : 0;
        finite[x] = (uint8_t)is_finite;
    }
}

static inline void divide_row(const float *row, const float *by, int64_t width, float *restrict out)
{
    for (int64_t x = 0; x < width; x++)
        out[x] = row[x] / by[x];
}

static inline void scale_row(const float *restrict row, const float *restrict by, int64_t width, float *restrict out)
{
    for (int64_t x = 0; x < width; x++)
        out[x] = row[x] * by[x];
}

/* Each number of a row with the one below and the one above, as far as there are some (NULL: where not). */
static inline void sum_down(const float *restrict row, const float *restrict below, const float *restrict above,
                            int64_t width, float *restrict sums)
{
    if (below && above)
        for (int64_t x = 0; x < width; x++)
            sums[x] = row[x] + below[x] + above[x];
    else if (below || above)
        for (int64_t x = 0; x < width; x++)
            sums[x] = row[x] + (below ? below : above)[x];
    else
        memcpy(sums, row, (size_t)width * sizeof *sums);
}

/* Each number with the next one and the one before, as far as there are some. */
static inline void sum_across(const float *restrict row, int64_t width, float *restrict sums)
{
    if (width == 1)
        sums[0] = row[0];
    if (width < 2)
        return;
    sums[0] = row[0] + row[1];
    for (int64_t x = 1; x < width - 1; x++)
        sums[x] = row[x] + row[x + 1] + row[x - 1];
    sums[width - 1] = row[width - 1] + row[width - 2];
}

/* A row of cells, over a map of its noise where there is one, 0 where it isn't finite; and its sums over 3 by 3 pixels,
 * first down and then across, in units of the noise: times a factor for each column. There is room for four rows. */
VECTORS LOOP void scaled_sums(const float *residual, int32_t mapped, const float *relative, const float *factor,
                              int64_t height, int64_t width, float *noise, uint8_t *finite, float *sums, float *room)
{
    float *above = room, *row = above + width, *below = row + width, *total = below + width;
    /* The row in hand is the one before `y`, whose numbers are ready then. */
    for (int64_t y = 0; y <= height; y++) {
        if (y < height) {
            int64_t at = y * width;
            if (mapped)
                divide_row(residual + at, relative + at, width, noise + at);
            keep_finite(noise + at, width, finite + at);
            scale_row(noise + at, factor, width, below);
        }
        if (y > 0) {
            sum_down(row, y < height ? below : NULL, y > 1 ? above : NULL, width, total);
            sum_across(total, width, sums + (y - 1) * width);
        }
        float *free = above;
        above = row, row = below, below = free;
    }
}

/* ---- the second look: sums of each column over what lies far from sources */

/* Which pixels show a source. */
static inline void find_hot(const float *restrict sums, int64_t width, float low, float high, uint8_t *restrict hot)
{
    for (int64_t x = 0; x < width; x++)
        hot[x] = (sums[x] > high) | (sums[x] < low);
}

/* Which pixels count: finite ones that are noise by themselves, and far from the sources that `kept` has so far. */
static inline void keep_quiet(const float *restrict noise, const float *restrict factor,
                              const uint8_t *restrict finite, int64_t width, float clip, uint8_t *restrict kept)
{
    for (int64_t x = 0; x < width; x++) {
        float scaled = noise[x] * factor[x];
        kept[x] = (uint8_t)((kept[x] ^ 1) & finite[x] & (scaled < clip) & (scaled > -clip));
    }
}

/* Which pixels of a row of cells count: those far from where the sums over 3 by 3 pixels lie out of bounds, and within
 * so many deviations. There is room for what a mask takes. */
VECTORS LOOP void quiet(const float *noise, const uint8_t *finite, const float *sums, const float *factor,
                        int64_t height, int64_t width, double low, double high, int64_t reach, double clip,
                        uint16_t *counts, uint8_t *lines, uint8_t *hot, uint8_t *kept)
{
    if (height < 1 || width < 1 || reach < 0 || reach > MOST_REACH)
        return;
    find_hot(sums, height * width, (float)low, (float)high, hot);
    grow_mask(hot, height, width, reach, counts, lines, kept);
    for (int64_t at = 0; at < height * width; at += width)
        keep_quiet(noise + at, factor, finite + at, width, (float)clip, kept + at);
}

/* What counts of a row, added to each column's sum, and in units of the cells. */
static inline void add_kept(const float *restrict row, const uint8_t *restrict kept, const float *restrict unit,
                            int64_t width, float *restrict total, float *restrict scaled)
{
    for (int64_t x = 0; x < width; x++) {
        float value = kept[x] ? row[x] : 0;
        total[x] += value;
        scaled[x] = value * unit[x];
    }
}

static inline void add_wide(const float *restrict row, const uint8_t *restrict kept, int64_t width,
                            double *restrict total)
{
    for (int64_t x = 0; x < width; x++)
        total[x] += kept[x] ? row[x] : 0;
}

static inline void add_mask(const uint8_t *restrict mask, int64_t width, int32_t *restrict total)
{
    for (int64_t x = 0; x < width; x++)
        total[x] += mask[x];
}

/* For each column of a row of cells how many pixels count and how many are there; the sum of the noise over those that
 * count, and that of the residual where a map of the noise makes it another. And the noise of those that count in the
 * cells' units, 0 elsewhere. */
VECTORS LOOP void column_sums(const float *noise, int32_t mapped, const float *residual, const uint8_t *kept,
                              const uint8_t *finite, const float *unit, int64_t height, int64_t width, int32_t *count,
                              int32_t *there, float *total, double *residual_total, float *scaled)
{
    for (int64_t x = 0; x < width; x++)
        count[x] = there[x] = 0, total[x] = 0, residual_total[x] = 0;
    for (int64_t at = 0; at < height * width; at += width) {
        add_kept(noise + at, kept + at, unit, width, total, scaled + at);
        if (mapped)
            add_wide(residual + at, kept + at, width, residual_total);
        add_mask(kept + at, width, count);
        add_mask(finite + at, width, there);
    }
}
