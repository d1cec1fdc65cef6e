/* Sources of an image and the boxes of their apertures, by the rules of SEP: what is summed over sources' pixels shares
 * these. */
#ifndef APERTURES_H
#define APERTURES_H

#include <math.h>
#include <stddef.h>

#include "loops.h"

/* Told of an aperture, by SEP's numbers: it reaches beyond the image's edge; it has pixels of other sources. */
enum { BEYOND = 16, CROWDED = 32 };

/* How far a pixel's corner lies from its centre, as SEP has it: pixels so near to an aperture's edge may lie on it. */
#define CORNER 0.7072

/* An image less its background, whose pixels belong to sources of a map, and the sources to look at. `deviations` are
 * the pixels' noise, or NULL where `deviation` is that of each; `undefined` says which pixels have no value, or is NULL
 * where all have one. */
struct field {
    const float *light;
    const int32_t *segments;
    const float *deviations;
    const uint8_t *undefined;
    double deviation;
    int64_t height, width, sources;
    const double *x, *y;
    const int32_t *numbers;
};

/* The pixels from `left` up to `right`, and from `top` up to `bottom`. */
struct box {
    int64_t left, right, top, bottom;
    int16_t told;
};

/* Without its fraction; what 32 bits don't hold, and what is no number, is the least number that they hold. */
static inline int64_t whole(double value)
{
    return value > INT32_MIN - 1.0 && value < INT32_MAX + 1.0 ? (int64_t)value : INT32_MIN;
}

/* Keeps a box's side within the image; whether it wasn't. */
static inline int16_t kept_within(int64_t *low, int64_t *high, int64_t side)
{
    int16_t told = *low < 0 || *high > side ? BEYOND : 0;
    *low = *low < 0 ? 0 : *low;
    *high = *high > side ? side : *high;
    return told;
}

/* The box of an aperture that reaches so far from its centre. */
static inline struct box box_around(const struct field *field, double x, double y, double across, double down)
{
    struct box box = {whole(x - across + 0.5), whole(x + across + 1.4999999),
                      whole(y - down + 0.5), whole(y + down + 1.4999999), 0};
    box.told |= kept_within(&box.left, &box.right, field->width);
    box.told |= kept_within(&box.top, &box.bottom, field->height);
    return box;
}

/* Whether a pixel belongs to another source than that with this number, which is above 0. Both are asked at once, since
 * a processor guesses badly where a source ends. */
static inline int another_source(int32_t owner, int32_t number)
{
    return (owner > 0) & (owner != number);
}

/* Which part of a pixel are 0, 1 and more of its subpixels, as they are added one by one, with so many along a side. */
static inline void find_parts(int side, double *parts)
{
    parts[0] = 0;
    for (int count = 1; count <= side * side; count++)
        parts[count] = parts[count - 1] + (1.0 / side) * (1.0 / side);
}

/* An ellipse by its equation: it holds what lies right and down of its centre where xx right^2 + yy down^2 + xy right
 * down is less than its radius squared. */
struct ellipse {
    double xx, yy, xy;
};

static inline struct ellipse ellipse_of(double long_axis, double short_axis, double angle)
{
    double cosine = cos(angle), sine = sin(angle);
    double along = long_axis * long_axis, across = short_axis * short_axis;
    return (struct ellipse){cosine * cosine / along + sine * sine / across,
                            sine * sine / along + cosine * cosine / across,
                            2 * cosine * sine * (1 / along - 1 / across)};
}

/* The square of a place's radius. */
static inline double radius_squared(struct ellipse ellipse, double right, double down)
{
    return ellipse.xx * right * right + ellipse.yy * down * down + ellipse.xy * right * down;
}

/* How far an ellipse with this radius reaches along an axis with this factor, and that of the other axis. */
static inline double extent(struct ellipse ellipse, double own, double other, double radius)
{
    double narrow = own - ellipse.xy * ellipse.xy / (4 * other);
    return narrow > 0 ? radius / sqrt(narrow) : 0;
}

static inline struct box box_of_ellipse(const struct field *field, double x, double y, struct ellipse ellipse,
                                        double radius)
{
    return box_around(field, x, y, extent(ellipse, ellipse.xx, ellipse.yy, radius),
                      extent(ellipse, ellipse.yy, ellipse.xx, radius));
}

#endif
