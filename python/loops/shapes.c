/* What is told of sources by their own pixels, which are given by their places in a flat image and their sources'
 * numbers: where the greatest values stand, and how well centres are known. */
#include "loops.h"
#include "places.h"

#include <float.h>
#include <math.h>

/* The greatest value of each source, NaN where one of its values is or it has no pixel, and the first place where it
 * stands, or `none`. */
LOOP void peaks(const float *image, const int64_t *places, const int64_t *numbers, int64_t count, int64_t none,
                int64_t length, double *greatest, int64_t *at)
{
    for (int64_t number = 0; number < length; number++) {
        greatest[number] = NAN;
        at[number] = none;
    }
    for (int64_t pixel = 0; pixel < count; pixel++) {
        const int64_t number = numbers[pixel], place = places[pixel];
        const float value = image[place];
        if (at[number] == none || value > greatest[number] || isnan(value)) {
            /* NaN stays, since nothing is greater. */
            greatest[number] = value;
            at[number] = place;
        }
    }
    for (int64_t number = 0; number < length; number++)
        at[number] = isnan(greatest[number]) ? none : at[number];
}

/* The variance of a pixel's light over that of the sky, by its value, the electrons for a unit and the sky's variance;
 * 0 where nothing is known. */
static inline double own_variance(float value, double gain, double variance)
{
    const double light = value < 0 ? 0 : value, more = light / gain / variance;
    if (isnan(more) || more > DBL_MAX)
        return 0;
    return more < -DBL_MAX ? -DBL_MAX : more;
}

/* For each source the sums of its pixels' variances times the squares of their distances right of and below its centre
 * and the product of both: `right` of all sources, and then the others. The variance is 1, and with a gain that of the
 * light besides, over the square of the noise: one number, or that of each pixel in 32 bits. */
LOOP void centre_sums(const float *image, const int64_t *places, const int64_t *numbers, int64_t count, int64_t width,
                      const double *centres, int64_t length, int32_t has_gain, double gain, int32_t each, double even,
                      const float *noise, double *sums)
{
    struct line line = {0, 0, width};
    double *right = sums, *down = sums + length, *both = sums + 2 * length;
    for (int64_t pixel = 0; pixel < count; pixel++) {
        const int64_t number = numbers[pixel], place = places[pixel];
        double variance = 1;
        if (has_gain) {
            /* Rounded to 32 bits, as it is given. */
            const float square = each ? noise[place] * noise[place] : 0;
            variance += own_variance(image[place], gain, each ? square : even);
        }
        go_to(&line, place);
        const double y = (double)line.number - centres[number];
        const double x = (double)(place - line.first) - centres[length + number];
        right[number] += variance * (x * x);
        down[number] += variance * (y * y);
        both[number] += variance * (x * y);
    }
}
