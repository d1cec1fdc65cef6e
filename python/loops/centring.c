/* Centres of sources under a Gaussian window with a deviation of one pixel, as SEP finds them. */
#include "apertures.h"

#include <stdbool.h>

/* The window's radius in pixels; so many subpixels along a side, and one more that no circle holds, tell which part of
 * a pixel at its edge counts. A centre goes so many steps at most, until one is as short as this; and the window lies on
 * so many rows and columns at most. */
#define RADIUS 4.0
#define STILL 1e-4
enum { SUBPIXELS = 11, LANES = 12, STEPS = 16, SIDE = 12 };

/* How far the rows or columns of a window lie from its centre, and the squares of that of their subpixels. */
struct lines {
    double off[SIDE], squares[SIDE][LANES];
};

/* Which part of a pixel some subpixels are. */
struct parts {
    double of[SUBPIXELS * SUBPIXELS + 1];
};

static struct parts parts_of_pixels(void)
{
    struct parts parts;
    find_parts(SUBPIXELS, parts.of);
    return parts;
}

static inline void find_lines(int64_t low, int64_t high, double centre, struct lines *lines)
{
    for (int64_t at = 0; at < SIDE && at < high - low; at++) {
        double off = (double)(low + at) - centre, step = 1.0 / SUBPIXELS, place = off + 0.5 * (step - 1);
        lines->off[at] = off;
        for (int sub = 0; sub < SUBPIXELS; sub++, place += step)
            lines->squares[at][sub] = place * place;
        lines->squares[at][SUBPIXELS] = INFINITY;
    }
}

/* How many of a pixel's subpixels lie in the window, by the squares of how far right and down they are. */
static inline int64_t subpixels_within(const double *restrict right, const double *restrict down)
{
    int64_t within = 0;
    for (int row = 0; row < SUBPIXELS; row++)
        for (int column = 0; column < LANES; column++)
            within += right[column] + down[row] < RADIUS * RADIUS;
    return within;
}

/* Has a centre go a step, twice as far as that of the light lies off. Whether it may go another. */
static inline bool go(const struct field *field, const struct parts *parts, double *x, double *y)
{
    const double inner = (RADIUS - CORNER) * (RADIUS - CORNER), outer = (RADIUS + CORNER) * (RADIUS + CORNER);
    const struct box box = box_around(field, *x, *y, RADIUS, RADIUS);
    struct lines rows, columns;
    double light = 0, right = 0, down = 0;
    find_lines(box.top, box.bottom, *y, &rows);
    find_lines(box.left, box.right, *x, &columns);
    for (int64_t row = 0; row < box.bottom - box.top; row++)
        for (int64_t column = 0; column < box.right - box.left; column++) {
            double across = columns.off[column], along = rows.off[row], square = across * across + along * along;
            if (!(square < outer))
                continue;
            double part = square > inner ? parts->of[subpixels_within(columns.squares[column], rows.squares[row])] : 1;
            double seen = field->light[(box.top + row) * field->width + box.left + column] * part * exp(-0.5 * square);
            light += seen, right += seen * across, down += seen * along;
        }
    if (!(light > 0))
        return false;
    right /= light, down /= light;
    *x += 2 * right, *y += 2 * down;
    return !(right * right + down * down < STILL * STILL);
}

/* Moves centres in an image to where they stand still. */
VECTORS LOOP void centred(const float *light, int64_t height, int64_t width, int64_t count, double *x, double *y)
{
    const struct field field = {.light = light, .height = height, .width = width};
    const struct parts parts = parts_of_pixels();
    for (int64_t source = 0; source < count; source++)
        for (int step = 0; step < STEPS && go(&field, &parts, x + source, y + source); step++)
            ;
}
