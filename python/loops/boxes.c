/* Sums over boxes of an image around some of its pixels, in whole numbers: they run down the columns and then along the
 * row, so that no table has the image's size. */
#include "loops.h"
#include "stored.h"

#include <string.h>

/* An image, which of its pixels are chosen, and what the chosen ones among the rows at work have in each column: how
 * many they are, and their sum. */
struct columns {
    const uint32_t *image;
    const uint8_t *chosen;
    int64_t height, width;
    int64_t top, bottom; /* the first of the rows at work, and the one behind their last */
    int32_t *pixels;
    int64_t *totals;
};

/* What the chosen pixels of a row have is added so many times. */
static inline __attribute__((always_inline)) void count_row(const struct columns *it, int64_t row, int32_t times)
{
    const int64_t width = it->width;
    const uint32_t *image = it->image + row * width;
    const uint8_t *chosen = it->chosen + row * width;
    int32_t *restrict pixels = it->pixels;
    int64_t *restrict totals = it->totals;
    for (int64_t x = 0; x < width; x++) {
        const int32_t mask = chosen[x] ? -1 : 0, number = number_of(image[x]) & mask;
        pixels[x] -= times * mask;
        totals[x] += times * (int64_t)number;
    }
}

VECTORS
static void add_row(const struct columns *it, int64_t row)
{
    count_row(it, row, 1);
}

VECTORS
static void take_row(const struct columns *it, int64_t row)
{
    count_row(it, row, -1);
}

/* Goes on to the rows from `top` up to `bottom`, as far as the image has them. */
static void go_on(struct columns *it, int64_t top, int64_t bottom)
{
    for (; it->bottom < bottom && it->bottom < it->height; it->bottom++)
        add_row(it, it->bottom);
    for (; it->top < top && it->top < it->bottom; it->top++)
        take_row(it, it->top);
}

/* The sums of all that stands left of each corner between the pixels of a row. */
struct sums {
    int64_t *pixels, *totals;
};

static void sum_along(const struct columns *it, struct sums left)
{
    int64_t pixels = 0, total = 0;
    left.pixels[0] = left.totals[0] = 0;
    for (int64_t x = 0; x < it->width; x++) {
        left.pixels[x + 1] = pixels += it->pixels[x];
        left.totals[x + 1] = total += it->totals[x];
    }
}

static inline int64_t within(int64_t place, int64_t end)
{
    return place < 0 ? 0 : place > end ? end : place;
}

/* For each of some pixels, in the order of their rows, how many of the pixels up to `half` rows and columns away are
 * chosen, as far as the image goes, and their sum. There is room for the columns, and for the corners along a row. */
LOOP void around_pixels(const uint32_t *image, const uint8_t *chosen, int64_t height, int64_t width, int64_t half,
                        const int64_t *rows, const int64_t *columns, int64_t count, int32_t *column_pixels,
                        int64_t *column_totals, int64_t *left_pixels, int64_t *left_totals, int64_t *pixels,
                        int64_t *totals)
{
    struct columns it = {image, chosen, height, width, 0, 0, column_pixels, column_totals};
    const struct sums left = {left_pixels, left_totals};
    memset(column_pixels, 0, (size_t)width * sizeof *column_pixels);
    memset(column_totals, 0, (size_t)width * sizeof *column_totals);
    for (int64_t place = 0; place < count; place++) {
        if (!place || rows[place] != rows[place - 1]) {
            go_on(&it, rows[place] - half, rows[place] + half + 1);
            sum_along(&it, left);
        }
        const int64_t first = within(columns[place] - half, width), end = within(columns[place] + half + 1, width);
        pixels[place] = left.pixels[end] - left.pixels[first];
        totals[place] = left.totals[end] - left.totals[first];
    }
}
