/* How the light of sources grows from circle to circle, as SEP sums it: a pixel counts by the area of it that lies in
 * the circle. What belongs to others has no part in it, and is taken to be as bright as the rest of the circle. */
#include "apertures.h"

#include <stdbool.h>

/* A place, from a circle's centre. */
struct place {
    double right, down;
};

static inline double triangle(struct place one, struct place other, struct place last)
{
    return 0.5 * fabs(one.right * (other.down - last.down) + other.right * (last.down - one.down) +
                      last.right * (one.down - other.down));
}

/* What the line between two places on a circle cuts off from it. */
static inline double cut_off(struct place one, struct place other, double radius)
{
    double across = other.right - one.right, along = other.down - one.down;
    double angle = 2 * asin(0.5 * sqrt(across * across + along * along) / radius);
    return 0.5 * radius * radius * (angle - sin(angle));
}

/* How far a circle reaches along one axis where it is so far along the other, by the squares of both. */
static inline double chord(double limit, double square)
{
    return sqrt(limit - square);
}

/* The area that a circle has of a rectangle right and down of its centre, from `near` to `far`. The circle leaves it at
 * two places: one at the right or the upper side, as the right upper corner lies in it or not, and one at the lower or
 * the left side. */
static double corner_within(struct place near, struct place far, double radius)
{
    double limit = radius * radius, right = far.right * far.right, down = far.down * far.down;
    double left = near.right * near.right, up = near.down * near.down;
    if (left + up > limit)
        return 0;
    double all = (far.right - near.right) * (far.down - near.down);
    if (right + down < limit)
        return all;
    bool by_right = right + up < limit, by_lower = left + down < limit;
    struct place first = {by_right ? far.right : chord(limit, up), by_right ? chord(limit, right) : near.down};
    struct place last = {by_lower ? chord(limit, down) : near.right, by_lower ? far.down : chord(limit, left)};
    double area = cut_off(first, last, radius);
    if (by_right && by_lower)
        return all - triangle(last, first, far) + area;
    if (by_right) {
        struct place foot = {far.right, near.down};
        return area + triangle(last, near, foot) + triangle(last, foot, first);
    }
    if (by_lower) {
        struct place foot = {near.right, far.down};
        return area + triangle(first, near, foot) + triangle(first, foot, last);
    }
    return area + triangle(first, last, near);
}

/* The area that a circle has of a rectangle around or beside its centre: of what lies left and up of that, right and up,
 * left and down, and right and down of it. */
static inline double area_within(double left, double right, double top, double bottom, double radius)
{
    double from_left = left > 0 ? left : 0, from_right = right < 0 ? -right : 0;
    double from_top = top > 0 ? top : 0, from_bottom = bottom < 0 ? -bottom : 0;
    double area = 0;
    if (left < 0 && top < 0)
        area += corner_within((struct place){from_right, from_bottom}, (struct place){-left, -top}, radius);
    if (right > 0 && top < 0)
        area += corner_within((struct place){from_bottom, from_left}, (struct place){-top, right}, radius);
    if (left < 0 && bottom > 0)
        area += corner_within((struct place){from_right, from_top}, (struct place){-left, bottom}, radius);
    if (right > 0 && bottom > 0)
        area += corner_within((struct place){from_left, from_top}, (struct place){right, bottom}, radius);
    return area;
}

/* Whether a pixel has no value or belongs to another source than that with this number. */
static inline bool is_foreign(const struct field *field, int64_t pixel, int32_t number)
{
    return field->undefined[pixel] | another_source(field->segments[pixel], number);
}

/* The light of a source in a circle, and whether there is something foreign. */
static double in_circle(const struct field *field, int64_t source, double radius, bool *crowded)
{
    double x = field->x[source], y = field->y[source], outer = radius + CORNER, inner = radius - CORNER;
    double flux = 0, area = 0, lost = 0;
    struct box box = box_around(field, x, y, radius, radius);
    outer *= outer, inner = inner > 0 ? inner * inner : 0;
    for (int64_t row = box.top; row < box.bottom; row++)
        for (int64_t column = box.left; column < box.right; column++) {
            double right = (double)column - x, down = (double)row - y, square = right * right + down * down, part = 1;
            if (!(square < outer))
                continue;
            if (square > inner)
                part = area_within(right - 0.5, right + 0.5, down - 0.5, down + 0.5, radius);
            int64_t pixel = row * field->width + column;
            bool foreign = is_foreign(field, pixel, field->numbers[source]);
            *crowded |= foreign;
            flux += foreign ? 0 : field->light[pixel] * part;
            lost += foreign ? part : 0;
            area += part;
        }
    return flux * (area / (area - lost));
}

/* The light of the sources at these places, whose pixels have these numbers in a map, within each of some radii above 0:
 * a row for each source. And whether there is something foreign within the first of them, so many; the source's row is
 * not to be used then. */
LOOP void light_within(const float *light, const int32_t *segments, const uint8_t *undefined, int64_t height,
                       int64_t width, int64_t sources, const double *x, const double *y, const int32_t *numbers,
                       int64_t count, const double *radii, int64_t first, double *flux, uint8_t *crowded)
{
    const struct field field = {light, segments, NULL, undefined, 0, height, width, sources, x, y, numbers};
    for (int64_t source = 0; source < sources; source++) {
        bool near = false, far = false;
        for (int64_t which = 0; which < count && !near; which++)
            flux[source * count + which] = in_circle(&field, source, radii[which], which < first ? &near : &far);
        crowded[source] = near;
    }
}
