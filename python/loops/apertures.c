/* The light in circles and ellipses around sources, with its error, as SEP sums it. Pixels of other sources have no
 * part in it. Besides, how much of an aperture has pixels without a value. */
#include "apertures.h"

/* A pixel at a circle's edge counts by how many of its subpixels, so many along a side, have their centres within. At
 * an ellipse's edge it counts if its own centre lies within. */
enum { SUBPIXELS = 5 };

/* What is summed in one aperture. */
struct sums {
    double flux, variance, unseen, area;
    int16_t told;
};

/* Where the loops put what they find: light, its error, what is told, and whether there are undefined pixels. */
struct found {
    double *flux, *error;
    int16_t *told;
    uint8_t *holed;
};

/* Undefined pixels, which have no light here, are taken for the mean of all others; NaN where there are no others. */
static inline double times_all(struct sums sums)
{
    if (!(sums.unseen > 0))
        return 1;
    return sums.area > sums.unseen ? sums.area / (sums.area - sums.unseen) : NAN;
}

static inline void put(struct found found, int64_t at, struct sums sums)
{
    double times = times_all(sums);
    found.flux[at] = sums.flux * times;
    found.error[at] = sqrt(sums.variance) * sqrt(times);
    found.told[at] = sums.told;
    found.holed[at] = sums.unseen > 0;
}

/* A row of pixels, and the source whose aperture crosses it. */
struct row {
    const float *light, *deviations;
    const int32_t *segments;
    const uint8_t *undefined;
    float variance;
    int32_t number;
};

static inline struct row row_of(const struct field *field, int64_t row, int32_t number)
{
    int64_t start = row * field->width;
    return (struct row){field->light + start,
                        field->deviations ? field->deviations + start : NULL,
                        field->segments + start,
                        field->undefined ? field->undefined + start : NULL,
                        (float)(field->deviation * field->deviation),
                        number};
}

/* Adds the part of a pixel that lies in an aperture. Squares of the noise are those of 32 bits, as SEP's. */
static inline void add(struct sums *sums, const struct row *row, int64_t column, double part)
{
    if (row->undefined) {
        sums->area += part;
        sums->unseen += row->undefined[column] ? part : 0;
    }
    if (another_source(row->segments[column], row->number)) {
        sums->told |= CROWDED;
        return;
    }
    float variance = row->deviations ? row->deviations[column] * row->deviations[column] : row->variance;
    sums->flux += row->light[column] * part;
    sums->variance += variance * part;
}

/* Two numbers that are looked at at once. */
typedef double pair __attribute__((vector_size(16)));
typedef int64_t both __attribute__((vector_size(16)));

/* The squares of the distances of a pixel's subpixels from a centre along an axis, with a place after them that lies in
 * no circle, so that they go by pairs. */
struct subpixels {
    double squares[SUBPIXELS + 1];
};

static inline struct subpixels subpixels_at(double distance)
{
    struct subpixels made;
    double step = 1.0 / SUBPIXELS, place = distance + 0.5 * (step - 1);
    for (int at = 0; at < SUBPIXELS; at++, place += step)
        made.squares[at] = place * place;
    made.squares[SUBPIXELS] = INFINITY;
    return made;
}

/* How many of a pixel's subpixels have their centres within a circle, by the square of its radius. */
static inline int64_t subpixels_within(const struct subpixels *across, const struct subpixels *down, double limit)
{
    both missed = {0, 0};
    for (int at = 0; at <= SUBPIXELS; at += 2) {
        pair squares = {across->squares[at], across->squares[at + 1]};
        for (int row = 0; row < SUBPIXELS; row++)
            missed += squares + down->squares[row] < limit;
    }
    return -(missed[0] + missed[1]);
}

/* Which part of a pixel some subpixels are. */
struct parts {
    double of[SUBPIXELS * SUBPIXELS + 1];
};

static struct parts parts_of_pixels(void)
{
    struct parts parts;
    find_parts(SUBPIXELS, parts.of);
    return parts;
}

/* A circle by its radius and the squares of that and of those between which pixels lie at its edge. */
struct circle {
    double radius, inner, limit, outer;
    const struct parts *parts;
};

static inline struct circle circle_with(double radius, const struct parts *parts)
{
    double inner = radius - CORNER, outer = radius + CORNER;
    return (struct circle){radius, inner > 0 ? inner * inner : 0, radius * radius, outer * outer, parts};
}

/* The part of a pixel that lies in a circle: how far it lies to the right of the centre, the square of its distance,
 * and where its subpixels' rows are. */
static inline double part_within(const struct circle *circle, double right, double square, const struct subpixels *rows)
{
    if (!(square > circle->inner))
        return 1;
    struct subpixels columns = subpixels_at(right);
    return circle->parts->of[subpixels_within(&columns, rows, circle->limit)];
}

/* The sums of a source in a circle. */
static inline struct sums in_circle(const struct field *field, int64_t source, const struct circle *circle)
{
    double x = field->x[source], y = field->y[source];
    struct box box = box_around(field, x, y, circle->radius, circle->radius);
    struct sums sums = {.told = box.told};
    for (int64_t at = box.top; at < box.bottom; at++) {
        struct row row = row_of(field, at, field->numbers[source]);
        double down = (double)at - y;
        struct subpixels rows = subpixels_at(down);
        for (int64_t column = box.left; column < box.right; column++) {
            double right = (double)column - x, square = right * right + down * down;
            if (square < circle->outer)
                add(&sums, &row, column, part_within(circle, right, square, &rows));
        }
    }
    return sums;
}

/* The light of each source in circles with these radii: of all of them in the first one, then in the next. */
LOOP void circles(const struct field *field, int64_t count, const double *restrict radii, double *restrict flux,
                  double *restrict error, int16_t *restrict told, uint8_t *restrict holed)
{
    struct found found = {flux, error, told, holed};
    struct parts parts = parts_of_pixels();
    for (int64_t source = 0; source < field->sources; source++)
        for (int64_t which = 0; which < count; which++) {
            struct circle circle = circle_with(radii[which], &parts);
            put(found, which * field->sources + source, in_circle(field, source, &circle));
        }
}

/* The square of a place's radius, as SEP takes it at an ellipse's edge: in another order of operations. */
static inline double edge_squared(struct ellipse ellipse, double right, double down)
{
    return ellipse.xx * right * right + ellipse.yy * (down * down) + ellipse.xy * right * down;
}

/* The sums of a source in an ellipse. Whether a pixel without a part belongs to another source is looked at as far as
 * for one at a circle's edge. */
static struct sums in_ellipse(const struct field *field, int64_t source, struct ellipse ellipse, double radius,
                              double edge)
{
    double x = field->x[source], y = field->y[source];
    double inner = radius - edge, outer = radius + edge, limit = radius * radius;
    inner = inner > 0 ? inner * inner : 0;
    outer *= outer;
    struct box box = box_of_ellipse(field, x, y, ellipse, radius);
    struct sums sums = {.told = box.told};
    for (int64_t at = box.top; at < box.bottom; at++) {
        struct row row = row_of(field, at, field->numbers[source]);
        double down = (double)at - y;
        for (int64_t column = box.left; column < box.right; column++) {
            double right = (double)column - x, square = radius_squared(ellipse, right, down);
            if (square < outer)
                add(&sums, &row, column, square <= inner || edge_squared(ellipse, right, down) < limit ? 1 : 0);
        }
    }
    return sums;
}

/* The light of each source in an ellipse with these half axes, each times a radius, and the angle of the long one. */
LOOP void ellipses(const struct field *field, const double *restrict long_axes, const double *restrict short_axes,
                   const double *restrict angles, const double *restrict radii, double *restrict flux,
                   double *restrict error, int16_t *restrict told, uint8_t *restrict holed)
{
    struct found found = {flux, error, told, holed};
    for (int64_t source = 0; source < field->sources; source++) {
        struct ellipse ellipse = ellipse_of(long_axes[source], short_axes[source], angles[source]);
        put(found, source, in_ellipse(field, source, ellipse, radii[source], CORNER / short_axes[source]));
    }
}
