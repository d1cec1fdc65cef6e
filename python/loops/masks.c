/* Masks of pixels, a byte for each. */
#include "masks.h"

#include <string.h>

#include "loops.h"

/* One more row, or one less. */
static inline void count_row(const uint8_t *restrict row, int64_t width, int more, uint16_t *restrict counts)
{
    for (int64_t x = 0; x < width; x++) {
        uint16_t one = row[x] != 0;
        counts[x] = (uint16_t)(more ? counts[x] + one : counts[x] - one);
    }
}

/* Whether one of two pixels so far apart is in the mask. */
static inline void either(const uint8_t *restrict line, int64_t length, int64_t apart, uint8_t *restrict out)
{
    for (int64_t x = 0; x < length; x++)
        out[x] = line[x] | line[x + apart];
}

/* Whether one of the pixels up to so many columns away is in the mask: `line` begins as many before the row and ends as
 * many behind it. It may be changed, as may the other line. */
static inline void spread(uint8_t *line, uint8_t *other, int64_t width, int64_t reach, uint8_t *out)
{
    int64_t wide = width + 2 * reach, length = 1;
    while (length <= 2 * reach) {
        int64_t step = length < 2 * reach + 1 - length ? length : 2 * reach + 1 - length;
        length += step;
        either(line, wide - length + 1, step, other);
        uint8_t *swapped = line;
        line = other, other = swapped;
    }
    memcpy(out, line, (size_t)width);
}

VECTORS void grow_mask(const uint8_t *mask, int64_t height, int64_t width, int64_t reach, uint16_t *counts,
                       uint8_t *lines, uint8_t *out)
{
    uint8_t *line = lines, *other = lines + width + 2 * reach;
    memset(counts, 0, (size_t)width * sizeof *counts);
    for (int64_t y = 0; y < height && y < reach; y++)
        count_row(mask + y * width, width, 1, counts);
    for (int64_t y = 0; y < height; y++) {
        if (y + reach < height)
            count_row(mask + (y + reach) * width, width, 1, counts);
        if (y > reach)
            count_row(mask + (y - reach - 1) * width, width, 0, counts);
        memset(line, 0, (size_t)reach);
        for (int64_t x = 0; x < width; x++)
            line[reach + x] = counts[x] != 0;
        memset(line + reach + width, 0, (size_t)reach);
        spread(line, other, width, reach, out + y * width);
    }
}

LOOP void grown(const uint8_t *mask, int64_t height, int64_t width, int64_t reach, uint16_t *counts, uint8_t *lines,
                uint8_t *out)
{
    if (height > 0 && width > 0 && reach >= 0 && reach <= MOST_REACH)
        grow_mask(mask, height, width, reach, counts, lines, out);
}
