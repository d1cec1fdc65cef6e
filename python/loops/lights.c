/* How far the light of sources reaches: its mean distance in an ellipse, and the circle that holds a half of it, as SEP
 * finds them. Pixels of other sources have no part in it. */
#include "apertures.h"

/* Half of the light is sought in so many rings, by so many subpixels along a pixel's side. */
enum { RINGS = 64, SUBPIXELS = 3 };

/* The mean distance of a source's light in units of an ellipse, within this radius; 0 where there is no light. */
static double mean_radius(const struct field *field, int64_t source, struct ellipse ellipse, double reach)
{
    double x = field->x[source], y = field->y[source], limit = reach * reach, light = 0, moment = 0;
    struct box box = box_of_ellipse(field, x, y, ellipse, reach);
    for (int64_t at = box.top; at < box.bottom; at++) {
        const float *row = field->light + at * field->width;
        const int32_t *owners = field->segments + at * field->width;
        double down = (double)at - y;
        for (int64_t column = box.left; column < box.right; column++) {
            double square = radius_squared(ellipse, (double)column - x, down);
            if ((square <= limit) & !another_source(owners[column], field->numbers[source])) {
                moment += sqrt(square) * row[column];
                light += row[column];
            }
        }
    }
    return moment <= 0 || light <= 0 ? 0 : moment / light;
}

/* The Kron radii of sources in ellipses with these half axes and angles of the long ones, sought within a radius. */
LOOP void kron_radii(const struct field *field, const double *restrict long_axes, const double *restrict short_axes,
                     const double *restrict angles, double reach, double *restrict radii)
{
    for (int64_t source = 0; source < field->sources; source++) {
        struct ellipse ellipse = ellipse_of(long_axes[source], short_axes[source], angles[source]);
        radii[source] = mean_radius(field, source, ellipse, reach);
    }
}

/* The squares of the distances of a pixel's subpixels from a centre along an axis. */
struct subpixels {
    double squares[SUBPIXELS];
};

static inline struct subpixels subpixels_at(double distance)
{
    struct subpixels made;
    double step = 1.0 / SUBPIXELS, place = distance + 0.5 * (step - 1);
    for (int at = 0; at < SUBPIXELS; at++, place += step)
        made.squares[at] = place * place;
    return made;
}

/* Rings of the same width around a centre, each with the light in it; what lies outside of all goes to one behind them.
 * Pixels count by subpixels where their corners may lie in other rings than their centres. */
struct rings {
    double width, per_pixel, light[RINGS + 1];
};

/* A distance in rings. */
static inline int32_t ring_of(const struct rings *rings, double distance)
{
    double place = distance * rings->per_pixel;
    return (int32_t)(place < RINGS ? place : RINGS);
}

/* Whether a pixel at this distance lies in one ring. */
static inline int in_one(const struct rings *rings, double distance)
{
    if (rings->width < 2 * CORNER)
        return 0;
    double beyond = fmod(distance, rings->width);
    return beyond >= CORNER && beyond <= rings->width - CORNER;
}

/* Adds the light of a pixel's subpixels, of which each has so much. */
static inline void add(struct rings *rings, struct subpixels across, struct subpixels down, double light)
{
    int32_t ring[SUBPIXELS * SUBPIXELS];
    for (int at = 0; at < SUBPIXELS * SUBPIXELS; at++)
        ring[at] = ring_of(rings, sqrt(across.squares[at % SUBPIXELS] + down.squares[at / SUBPIXELS]));
    for (int at = 0; at < SUBPIXELS * SUBPIXELS; at++)
        rings->light[ring[at]] += light;
}

/* A source's light in rings within a circle. */
static struct rings rings_within(const struct field *field, int64_t source, double reach)
{
    double x = field->x[source], y = field->y[source], outer = (reach + CORNER) * (reach + CORNER);
    struct box box = box_around(field, x, y, reach, reach);
    struct rings rings = {reach / RINGS, 1 / (reach / RINGS), {0}};
    for (int64_t at = box.top; at < box.bottom; at++) {
        const float *row = field->light + at * field->width;
        const int32_t *owners = field->segments + at * field->width;
        double down = (double)at - y;
        struct subpixels rows = subpixels_at(down);
        for (int64_t column = box.left; column < box.right; column++) {
            double right = (double)column - x, square = right * right + down * down;
            if ((square < outer) & !another_source(owners[column], field->numbers[source])) {
                if (in_one(&rings, sqrt(square)))
                    rings.light[ring_of(&rings, sqrt(square))] += row[column];
                else
                    add(&rings, subpixels_at(right), rows, (1.0 / SUBPIXELS) * (1.0 / SUBPIXELS) * row[column]);
            }
        }
    }
    return rings;
}

/* The radius at which the light from the centre on amounts to this, along a straight line within a ring; `reach` where
 * it doesn't so far. */
static double radius_holding(const struct rings *rings, double reach, double light)
{
    double before = rings->light[0];
    if (!(before < light))
        return light <= 0 || before == 0 ? 0 : rings->width * light / before;
    for (int ring = 1; ring < RINGS; ring++) {
        double sum = before + rings->light[ring];
        if (!(sum < light))
            return rings->width * (ring + (light - before) / (sum - before));
        before = sum;
    }
    return reach;
}

/* The rings around a source that are summed, near its centre and, if `is_far`, as far as is sought; the reach is no
 * number where there are none. */
struct looks {
    double reach;
    struct rings near, far;
    int is_far;
};

/* The radius that holds so much of a source's light. It is sought near the centre first, within so many times the
 * reach, since that is quicker, and taken from there where it is less than `enough` times the reach. */
static double sought(const struct field *field, int64_t source, struct looks *looks, double reach, double light,
                     double near, double enough)
{
    if (reach != looks->reach) {
        looks->near = rings_within(field, source, near * reach);
        looks->reach = reach;
        looks->is_far = 0;
    }
    double radius = radius_holding(&looks->near, near * reach, light);
    if (!(radius >= enough * reach))
        return radius;
    if (!looks->is_far)
        looks->far = rings_within(field, source, reach);
    looks->is_far = 1;
    return radius_holding(&looks->far, reach, light);
}

/* The radii that hold half of fluxes, within reaches, so many for each source: for all sources the first, then the
 * next. Where the reach is that of the one before, the light has been summed. */
LOOP void half_radii(const struct field *field, int64_t count, const double *restrict reaches,
                     const double *restrict fluxes, double near, double enough, double *restrict radii)
{
    struct looks looks;
    for (int64_t source = 0; source < field->sources; source++) {
        looks.reach = NAN;
        for (int64_t which = 0; which < count; which++) {
            int64_t at = which * field->sources + source;
            radii[at] = sought(field, source, &looks, reaches[at], 0.5 * fluxes[at], near, enough);
        }
    }
}
