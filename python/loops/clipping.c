/* The level and the noise of cells by clipped statistics, as SEP has them for the meshes of a background: the same
 * numbers to the last digit. Some cells are looked at together, a pixel of each at a time, so that their sums, each in
 * the order of its pixels, don't wait for one another. */
#include <math.h>
#include <string.h>

#include "loops.h"

/* How many cells are looked at together, and numbers for each of them. */
enum { TOGETHER = 8 };
typedef float values __attribute__((vector_size(TOGETHER * sizeof(float)), aligned(sizeof(float))));
typedef int32_t numbers __attribute__((vector_size(TOGETHER * sizeof(int32_t)), aligned(sizeof(int32_t))));
typedef double sums __attribute__((vector_size(TOGETHER * sizeof(double)), aligned(sizeof(double))));

/* At most so many bins has a histogram, and so often it is clipped. */
enum { MOST_BINS = 4096, MOST_ROUNDS = 100 };

/* What isn't above this is no value, and no level; and the least share of a cell that has to have one. */
#define NO_VALUE (-1e30f)
#define ENOUGH 0.5f

/* A row of cells, and of these the ones that are looked at together. */
struct row {
    const float *pixels;
    const uint8_t *left_out;
    int64_t height, width, mesh;
};
struct cells {
    const int64_t *places;
    int count;
};

/* The room for the cells that are looked at together: what they have of pixels, one of each cell after the other; for a
 * histogram its bins, and how many pixels are in the bins below each. */
struct room {
    float *pixels;
    int32_t *bins, *below;
};

/* Some pixels of each cell: how many, and their sums. */
struct totals {
    numbers pixels;
    sums values, squares;
};

struct spread {
    double mean, deviation;
    int32_t pixels;
};

/* A cell's bins: a value's bin is its quotient with the scale, so much on, without its fraction. */
struct scale {
    float zero, scale, shift;
    int32_t bins;
};

/* The bins of a histogram from the first to the last, and the sums over their pixels of the bins' numbers and of these
 * squared. They are whole, so their order is free. */
struct range {
    int32_t first, last;
    int64_t numbers, squares;
};

static inline int64_t columns_of(const struct row *row, int64_t place)
{
    int64_t left = place < 0 ? 0 : row->width - place * row->mesh;
    return left < row->mesh ? left : row->mesh;
}

/* Takes the pixels of each cell that aren't left out; then nothing, where another cell has more of them. Tells how many
 * the cells have, and how many that with the most. */
static inline int64_t gather(const struct row *row, struct cells cells, float *pixels, int64_t *counts)
{
    int64_t most = 0;
    for (int64_t y = 0; y < row->height; y++)
        for (int cell = 0; cell < cells.count; cell++) {
            int64_t left = y * row->width + cells.places[cell] * row->mesh, count = counts[cell];
            int64_t right = left + columns_of(row, cells.places[cell]);
            for (int64_t at = left; at < right; at++) {
                pixels[count * TOGETHER + cell] = row->pixels[at];
                count += !row->left_out[at];
            }
            counts[cell] = count;
        }
    for (int cell = 0; cell < cells.count; cell++)
        most = counts[cell] > most ? counts[cell] : most;
    for (int cell = 0; cell < TOGETHER; cell++)
        for (int64_t at = counts[cell]; at < most; at++)
            pixels[at * TOGETHER + cell] = NAN;
    return most;
}

/* Sums up what lies from the low to the high of each cell. */
static inline void sum_up(const float *pixels, int64_t count, const values *low, const values *high, struct totals *out)
{
    struct totals totals = {0};
    for (int64_t at = 0; at < count; at++) {
        values pixel = *(const values *)(pixels + at * TOGETHER);
        numbers within = (pixel >= *low) & (pixel <= *high);
        sums value = __builtin_convertvector((values)((numbers)pixel & within), sums);
        totals.pixels -= within;
        totals.values += value;
        totals.squares += value * value;
    }
    *out = totals;
}

static inline struct spread spread_of(const struct totals *totals, int cell)
{
    int32_t pixels = totals->pixels[cell];
    double mean = totals->values[cell] / pixels, square = totals->squares[cell] / pixels - mean * mean;
    return (struct spread){mean, square > 0 ? sqrt(square) : 0, pixels};
}

/* Sums up what lies up to two deviations from the mean of others. */
static inline void sum_up_again(const float *pixels, int64_t count, const struct totals *all, struct totals *out)
{
    values low, high;
    for (int cell = 0; cell < TOGETHER; cell++) {
        struct spread spread = spread_of(all, cell);
        low[cell] = (float)(spread.mean - 2 * spread.deviation);
        high[cell] = (float)(spread.mean + 2 * spread.deviation);
    }
    sum_up(pixels, count, &low, &high, out);
}

/* About as many bins as pixels, over five deviations on both sides. */
static inline struct scale scale_of(struct spread spread)
{
    double wanted = sqrt(2 / 3.14159265358979323846) * 5 / 4 * spread.pixels + 1;
    struct scale found = {(float)(spread.mean - 5 * spread.deviation), 1, 0, MOST_BINS};
    if (wanted < MOST_BINS)
        found.bins = (int32_t)wanted;
    if (spread.deviation > 0)
        found.scale = (float)(10 * spread.deviation / found.bins);
    found.shift = (float)(0.499999 - found.zero / found.scale);
    return found;
}

/* Puts the bins in the place of their pixels, with a fraction: the first has all that is less than one away from 0, and
 * what is in none goes to one behind them. */
static inline void to_bins(float *pixels, int64_t count, const struct scale *scales)
{
    values scale, shift, bins;
    for (int cell = 0; cell < TOGETHER; cell++)
        scale[cell] = scales[cell].scale, shift[cell] = scales[cell].shift, bins[cell] = (float)scales[cell].bins;
    for (int64_t at = 0; at < count; at++) {
        values *pixel = (values *)(pixels + at * TOGETHER), bin = *pixel / scale + shift;
        numbers within = (bin > -1) & (bin < bins);
        *pixel = (values)(((numbers)bin & within) | ((numbers)bins & ~within));
    }
}

/* The histogram of a cell from its pixels' bins. */
static inline void count_bins(const float *pixels, int64_t count, int32_t bins, const struct room *room)
{
    memset(room->bins, 0, ((size_t)bins + 1) * sizeof *room->bins);
    for (int64_t at = 0; at < count; at++)
        room->bins[(int32_t)pixels[at * TOGETHER]]++;
    room->below[0] = 0;
    for (int32_t bin = 0; bin < bins; bin++)
        room->below[bin + 1] = room->below[bin] + room->bins[bin];
}

/* Adds the bins from one up to another to a range's sums, or takes them away. */
static inline void move(struct range *range, const int32_t *bins, int32_t from, int32_t to, int64_t sign)
{
    uint64_t numbers = 0, squares = 0;
    for (int32_t bin = from; bin < to; bin++) {
        uint32_t pixels = (uint32_t)bins[bin], number = (uint32_t)bin;
        numbers += (uint64_t)pixels * number;
        squares += (uint64_t)pixels * (number * number);
    }
    range->numbers += sign * (int64_t)numbers, range->squares += sign * (int64_t)squares;
}

static inline void move_ends(struct range *range, const int32_t *bins, int32_t first, int32_t last)
{
    move(range, bins, range->first, first, -1);
    move(range, bins, first, range->first, 1);
    move(range, bins, last + 1, range->last + 1, -1);
    move(range, bins, range->last + 1, last + 1, 1);
    range->first = first, range->last = last;
}

/* How many bins of a range are counted from its lower end, where a bin more is counted from the end that has fewer
 * pixels, or from the upper one, until all are. They are those with which, and without the last of which, the lower end
 * has fewer pixels together than all have. */
static inline int32_t lower_bins(const int32_t *below, const struct range *range)
{
    int64_t offset = below[range->first], every = below[range->last + 1] - offset;
    int32_t known = 0, beyond = range->last - range->first + 1;
    while (beyond - known > 1) {
        int32_t middle = known + (beyond - known) / 2, bin = range->first + middle;
        if (below[bin] - offset + below[bin - 1] - offset < every)
            known = middle;
        else
            beyond = middle;
    }
    return known;
}

/* The median of a range, where its lower and its upper bins meet: as far on as these have more pixels. */
static inline double median_of(const struct room *room, const struct range *range)
{
    int32_t next = range->first + lower_bins(room->below, range);
    if (next == 0)
        return 0;
    double lower = room->below[next] - room->below[range->first];
    double upper = room->below[range->last + 1] - room->below[next];
    int32_t one = room->bins[next - 1], other = room->bins[next];
    return next - 1 + 0.5 + (upper - lower) / (2.0 * (one > other ? one : other));
}

/* The bin next to a place; beyond the ends that there, and the first for what is no number. */
static inline int32_t bin_at(double place, int32_t bins)
{
    if (!(place + 0.5 > 0 && place + 0.5 < INT32_MAX + 1.0))
        return 0;
    return place + 0.5 < bins - 1 ? (int32_t)(place + 0.5) : bins - 1;
}

/* The level and the noise of a histogram, in bins, clipped at three deviations from its median until the deviation
 * stays. The level is the mode by mean and median, or the median where many pixels have the light of sources. */
static inline void clip(const struct room *room, int32_t bins, double *level, double *noise)
{
    struct range range = {0, -1, 0, 0};
    int32_t first = 0, last = bins - 1;
    double mean = *level, median = mean, deviation = 10.0 * last, former = 1;
    for (int round = 0; round < MOST_ROUNDS && deviation >= 0.1 && fabs(deviation / former - 1) > 1e-4; round++) {
        former = deviation;
        move_ends(&range, room->bins, first, last);
        median = median_of(room, &range);
        int32_t pixels = room->below[last + 1] - room->below[first];
        mean = pixels ? (double)range.numbers / pixels : 0;
        double square = pixels ? (double)range.squares / pixels - mean * mean : 0;
        deviation = square > 0 ? sqrt(square) : 0;
        first = bin_at(median - 3 * deviation, bins);
        last = bin_at(median + 3 * deviation, bins);
    }
    int crowded = !(fabs((mean - median) / deviation) < 0.3);
    *level = !(deviation > 0) ? mean : crowded ? median : 2.5 * median - 1.5 * mean;
    *noise = deviation;
}

/* The level and the noise of a cell from its pixels' bins. */
VECTORS static void level_of(const struct room *room, int64_t count, struct scale scale, double mean, int cell,
                             float *level, float *noise)
{
    double found = (float)mean, deviation = 0;
    count_bins(room->pixels + cell, count, scale.bins, room);
    clip(room, scale.bins, &found, &deviation);
    float value = (float)(scale.zero + found * scale.scale), width = (float)(deviation * scale.scale);
    int known = !((float)mean <= NO_VALUE || value <= NO_VALUE);
    *level = known ? value : 0;
    *noise = known && !(width <= 0) ? width : 1;
}

/* The levels and the noise of the cells that are looked at together. */
VECTORS static void levels_together(const struct row *row, struct cells cells, const struct room *room, float *levels,
                                    float *noise)
{
    int64_t counts[TOGETHER] = {0}, most = gather(row, cells, room->pixels, counts);
    values low = (values){0} + nextafterf(NO_VALUE, 0), high = (values){0} + INFINITY;
    struct totals all, near;
    struct scale scales[TOGETHER];
    sum_up(room->pixels, most, &low, &high, &all);
    sum_up_again(room->pixels, most, &all, &near);
    for (int cell = 0; cell < TOGETHER; cell++)
        scales[cell] = scale_of(spread_of(&near, cell));
    to_bins(room->pixels, most, scales);
    for (int cell = 0; cell < cells.count; cell++) {
        double mean = spread_of(&near, cell).mean;
        int64_t area = row->height * columns_of(row, cells.places[cell]);
        levels[cell] = 0, noise[cell] = 1;
        if ((float)all.pixels[cell] >= (float)area * ENOUGH)
            level_of(room, counts[cell], scales[cell], mean, cell, levels + cell, noise + cell);
    }
}

/* The level and the noise of the cells at these places in a row of cells, by their pixels that aren't left out; 0 and 1
 * where fewer than half have a value. There is room for TOGETHER times the pixels of a cell in `kept`, and for
 * MOST_BINS + 1 numbers in each of `bins` and `below`. A cell has fewer than 2^29 pixels. */
LOOP void clipped_levels(const float *pixels, const uint8_t *left_out, int64_t height, int64_t width, int64_t mesh,
                         const int64_t *places, int64_t count, float *kept, int32_t *bins, int32_t *below,
                         float *levels, float *noise)
{
    const struct row row = {pixels, left_out, height, width, mesh};
    const struct room room = {kept, bins, below};
    for (int64_t done = 0; done < count; done += TOGETHER) {
        struct cells cells = {places + done, count - done < TOGETHER ? (int)(count - done) : TOGETHER};
        levels_together(&row, cells, &room, levels + done, noise + done);
    }
}
