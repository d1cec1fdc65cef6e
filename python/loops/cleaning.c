/* Which pixels lie beside all sources, and which ones of a source stand out above the light that these have. */
#include "loops.h"
#include "places.h"
#include "stored.h"

#include <math.h>

/* Of pixels that lie near components, or not, tells which ones lie beside all of them: not near one, defined and below
 * the threshold. */
VECTORS
LOOP void beside(const uint32_t *numbers, int64_t count, int64_t threshold, uint8_t *mask)
{
    const int32_t most = threshold > INT32_MAX ? INT32_MAX : threshold <= INT32_MIN ? INT32_MIN : threshold - 1;
    for (int64_t place = 0; place < count; place++) {
        const int32_t number = number_of(numbers[place]);
        mask[place] = !mask[place] & (number <= most) & (number != INT32_MIN);
    }
}

/* Paints pixels, or those alone that are shown, in a mask of so many, the first of which has this place. */
LOOP void paint(const int64_t *places, const uint8_t *shown, int64_t count, int32_t shown_alone, int64_t first,
                uint8_t *restrict mask, int64_t size)
{
    const uint8_t others = !shown_alone;
    for (int64_t pixel = 0; pixel < count; pixel++) {
        const int64_t place = places[pixel] - first;
        if (place >= 0 && place < size)
            mask[place] = shown[pixel] | others;
    }
}

/* The rows and columns of the pixels that are shown, in a window of some width, and how many they are. */
LOOP void shown_pixels(const int64_t *places, const uint8_t *shown, int64_t count, int64_t width,
                       int64_t *restrict rows, int64_t *restrict columns, int64_t *found)
{
    struct line line = {0, 0, width};
    int64_t own = 0;
    for (int64_t pixel = 0; pixel < count; pixel++) {
        go_to(&line, places[pixel]);
        rows[own] = line.number;
        columns[own] = places[pixel] - line.first;
        own += shown[pixel] != 0;
    }
    *found = own;
}

/* Lists the pixels that aren't shown, and tells how many they are, and how many of each component. Owners are sources by
 * their numbers, of which each has one. */
LOOP void hidden_pixels(const int32_t *owners, const uint8_t *shown, int64_t count, const int64_t *components,
                        int64_t sources, int64_t *restrict pixels, int64_t *found, int64_t *restrict hidden)
{
    int64_t own = 0;
    for (int64_t pixel = 0; pixel < count; pixel++) {
        pixels[own] = pixel;
        own += !shown[pixel];
    }
    for (int64_t at = 0; at < own; at++) {
        const int64_t owner = owners[pixels[at]];
        if (owner >= 0 && owner < sources)
            hidden[components[owner]]++;
    }
    *found = own;
}

/* Whether a mask has a pixel up to so many rows and columns away. */
static int is_near(const uint8_t *mask, int64_t height, int64_t width, int64_t row, int64_t column, int64_t reach)
{
    const int64_t top = row > reach ? row - reach : 0, bottom = row + reach < height ? row + reach : height - 1;
    const int64_t left = column > reach ? column - reach : 0, right = column + reach < width ? column + reach : width - 1;
    for (int64_t y = top; y <= bottom; y++)
        for (int64_t x = left; x <= right; x++)
            if (mask[y * width + x])
                return 1;
    return 0;
}

/* Which of some pixels that aren't shown don't lie within reach of one that is, if their component is chosen: the mask
 * has those that are, and its first row begins at a place. */
LOOP void away_from_shown(const int64_t *pixels, int64_t count, const int64_t *places, const int32_t *owners,
                          const int64_t *components, const uint8_t *chosen, int64_t sources, const uint8_t *mask,
                          int64_t first, int64_t height, int64_t width, int64_t reach, uint8_t *away)
{
    for (int64_t at = 0; at < count; at++) {
        const int64_t place = places[pixels[at]] - first, owner = owners[pixels[at]];
        if (owner < 0 || owner >= sources || !chosen[components[owner]] || place < 0 || place >= height * width)
            continue;
        away[pixels[at]] = !is_near(mask, height, width, place / width, place % width, reach);
    }
}

/* The mean of so many pixels with these sums, where they are at least so many, but not below 0; and else 0. */
LOOP void mean_light(const int64_t *pixels, const int64_t *totals, int64_t count, double least, double *light)
{
    for (int64_t place = 0; place < count; place++) {
        const double mean = (double)totals[place] / (double)(pixels[place] > 1 ? pixels[place] : 1);
        light[place] = (double)pixels[place] >= least && mean > 0 ? mean : 0;
    }
}

/* How many of its pixels that are shown each source has that stand a threshold, times the root of the variance there,
 * above the light around: for each of these pixels alone there are light and variance, but where `step` is 0 only one
 * variance. Of `size` numbers and `sources` sources are the pixels; others don't count. */
LOOP void stand_out(const uint32_t *numbers, int64_t size, const int64_t *places, const int32_t *owners,
                    const uint8_t *shown, int64_t count, const double *light, const double *variance, int64_t step,
                    int64_t threshold, int64_t sources, int64_t *standing)
{
    int64_t next = 0;
    for (int64_t pixel = 0; pixel < count; pixel++) {
        if (!shown[pixel])
            continue;
        const double limit = light[next] + (double)threshold * sqrt(variance[next * step]);
        const int64_t place = places[pixel], owner = owners[pixel];
        next++;
        if (place >= 0 && place < size && owner >= 0 && owner < sources)
            standing[owner] += number_of(numbers[place]) >= limit;
    }
}
