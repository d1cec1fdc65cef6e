/* What a row of cells holds beside sources: which values, and how many pixels. */
#include <math.h>

#include "loops.h"

/* A row times a number, and the range of each column with what that has; what isn't a number doesn't count. */
static inline void widen(const float *restrict row, float times, const uint8_t *restrict left_out, int64_t width,
                         float *restrict scaled, float *restrict low, float *restrict high, int32_t *restrict outside)
{
    for (int64_t x = 0; x < width; x++) {
        float value = row[x] * times;
        float least = left_out[x] ? INFINITY : value, most = left_out[x] ? -INFINITY : value;
        scaled[x] = value;
        low[x] = least < low[x] ? least : low[x];
        high[x] = most > high[x] ? most : high[x];
        outside[x] += left_out[x];
    }
}

/* A row of cells times a number; and for each column the least and the greatest of these that aren't left out, and how
 * many pixels are. Where there are none the least is infinite, and the greatest below all. */
VECTORS LOOP void column_ranges(const float *values, double times, const uint8_t *left_out, int64_t height,
                                int64_t width, float *scaled, float *low, float *high, int32_t *outside)
{
    for (int64_t x = 0; x < width; x++)
        low[x] = INFINITY, high[x] = -INFINITY, outside[x] = 0;
    for (int64_t at = 0; at < height * width; at += width)
        widen(values + at, (float)times, left_out + at, width, scaled + at, low, high, outside);
}
