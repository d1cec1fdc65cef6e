/* The light of sources under Gaussian windows that move with it: its centres, its moments, and those of its variance.
 * The weights are made as maxdetect/_weights.py tells, and the sums as _windowed.py does. */
#include "loops.h"

#include <math.h>
#include <stddef.h>
#include <string.h>

#define INLINE static inline __attribute__((always_inline))

/* How many sums are made beside each other; the powers of places are from 0 to 2. */
enum { STRANDS = 4, TERMS = 13, POWERS = 3, MOMENTS = POWERS * POWERS };

/* Neighbouring numbers that are reckoned with at once, wherever they lie. */
typedef double strands __attribute__((vector_size(STRANDS * sizeof(double)), aligned(sizeof(double)), may_alias));

/* An image less its background, with one noise or a noise for each pixel, and the variance that a unit of light has of
 * its own. */
struct scene {
    const float *light, *noises;
    const uint8_t *undefined;
    const int32_t *segments;
    int64_t height, width;
    double noise, own;
};

/* Lists of the sources' middle pixels, rows first and then columns, of their windows' standard deviations, and of how
 * far these reach from the middles, which is at most `most`. */
struct sources {
    const int64_t *middles;
    const double *sigmas;
    const int64_t *reaches;
    int64_t count, most;
};

/* How many steps a centre may go, and how short one is when it stands still. */
struct rules {
    int64_t steps;
    double still;
};

/* A source's window, which reaches so far from its middle pixel, in a square of `side` times `side` numbers that is 0
 * around it. The middle is the number `before` of a line, a multiple of STRANDS as the side is. Even weights are those
 * around the middle; weights have two lines, one of the rows and one of the columns. */
struct window {
    int64_t reach, before, side, row, column;
    double sigma, narrow;
    double *values, *variance, *even, *weights[POWERS], *sums[POWERS];
    uint8_t *own;
};

INLINE int64_t filled_up(int64_t length)
{
    return (length + STRANDS - 1) / STRANDS * STRANDS;
}

INLINE int64_t clamped(int64_t number, int64_t least, int64_t most)
{
    return number < least ? least : number > most ? most : number;
}

/* The window of a source by its place in the list, without room. */
INLINE struct window window_of(const struct sources *sources, int64_t source)
{
    const int64_t reach = clamped(sources->reaches[source], 0, sources->most), before = filled_up(reach);
    const double sigma = sources->sigmas[source];
    return (struct window){
        .reach = reach,
        .before = before,
        .side = before + filled_up(reach + 1),
        .row = sources->middles[source] - before,
        .column = sources->middles[sources->count + source] - before,
        .sigma = sigma,
        .narrow = 1 / (sigma * sigma),
    };
}

/* Shares out the room to a window: 2 * side + 10 lines of numbers and as many bytes as numbers in the square. */
INLINE void take_room(struct window *window, double *room)
{
    const int64_t line = window->side, square = line * line;
    window->values = room;
    window->variance = window->values + square;
    window->even = window->variance + square;
    for (int power = 0; power < POWERS; power++) {
        window->weights[power] = window->even + (2 * power + 1) * line;
        window->sums[power] = window->even + (2 * POWERS + 1 + power) * line;
    }
    window->own = (uint8_t *)(window->sums[POWERS - 1] + line);
}

/* The part of an image that a window covers: from its first row and column to those behind the last ones. */
struct part {
    int64_t top, bottom, left, right;
};

INLINE struct part part_of(const struct scene *scene, const struct window *window)
{
    const int64_t first = window->before - window->reach, behind = window->before + window->reach + 1;
    struct part part;
    part.top = clamped(window->row + first, 0, scene->height);
    part.bottom = clamped(window->row + behind, part.top, scene->height);
    part.left = clamped(window->column + first, 0, scene->width);
    part.right = clamped(window->column + behind, part.left, scene->width);
    return part;
}

/* Calls up the rows of a window that is read soon, since each lies elsewhere in memory. */
INLINE void call_up(const struct scene *scene, const struct window *window)
{
    const struct part part = part_of(scene, window);
    for (int64_t row = part.top; row < part.bottom && part.left < part.right; row++)
        for (int end = 0; end < 2; end++) {
            const int64_t at = row * scene->width + (end ? part.right - 1 : part.left);
            __builtin_prefetch(scene->light + at);
            __builtin_prefetch(scene->segments + at);
            __builtin_prefetch(scene->undefined + at);
        }
}

/* Reads a piece of a row, and which of its pixels are the source's own or sky. Answers how many are. */
INLINE int64_t read_row(const struct scene *scene, int64_t start, int32_t length, int32_t number,
                        double *restrict values, uint8_t *restrict own)
{
    const float *restrict light = scene->light + start;
    const uint8_t *restrict undefined = scene->undefined + start;
    const int32_t *restrict segments = scene->segments + start;
    int32_t seen = 0;
    for (int32_t at = 0; at < length; at++)
        values[at] = light[at];
    for (int32_t at = 0; at < length; at++) {
        const int32_t there = segments[at], other = (there != 0) & (there != number);
        own[at] = (uint8_t)((other | undefined[at]) == 0);
    }
    for (int32_t at = 0; at < length; at++)
        seen += own[at];
    return seen;
}

/* Has those of the other side of the middle count where pixels are none of the source's or sky's, and 0 where neither
 * is. */
INLINE void mirror(const struct window *window)
{
    const int64_t first = window->before - window->reach, behind = window->before + window->reach + 1;
    const int64_t twice = 2 * window->before * (window->side + 1);
    for (int64_t down = first; down < behind; down++)
        for (int64_t here = down * window->side + first; here < down * window->side + behind; here++)
            if (!window->own[here])
                window->values[here] = window->own[twice - here] ? window->values[twice - here] : 0;
}

/* Reads the values of a window. */
INLINE void read_values(const struct scene *scene, const struct window *window, int32_t number)
{
    const struct part part = part_of(scene, window);
    const int64_t across = part.right - part.left, whole = 2 * window->reach + 1;
    int64_t seen = 0;
    memset(window->values, 0, (size_t)(window->side * window->side) * sizeof(double));
    memset(window->own, 0, (size_t)(window->side * window->side));
    for (int64_t row = part.top; row < part.bottom && across > 0; row++) {
        const int64_t at = (row - window->row) * window->side + part.left - window->column;
        seen += read_row(scene, row * scene->width + part.left, (int32_t)across, number, window->values + at,
                         window->own + at);
    }
    if (seen < whole * whole)
        mirror(window);
}

/* The noise of a row of a window's pixels, from this column on; beyond the image that of the nearest pixel. */
INLINE void read_noise(const struct scene *scene, int64_t row, int64_t column, int64_t length, double *restrict noises)
{
    const int64_t start = clamped(row, 0, scene->height - 1) * scene->width;
    for (int64_t at = 0; at < length; at++)
        noises[at] = scene->noise;
    for (int64_t at = 0; scene->noises && at < length; at++)
        noises[at] = scene->noises[start + clamped(column + at, 0, scene->width - 1)];
}

/* The variance of a window's pixels: the noise's, and the light's own. */
INLINE void read_variance(const struct scene *scene, const struct window *window)
{
    const int64_t first = window->before - window->reach, length = 2 * window->reach + 1, line = window->side;
    memset(window->variance, 0, (size_t)(line * line) * sizeof(double));
    for (int64_t down = first; down < first + length; down++) {
        const double *restrict values = window->values + down * line;
        double *restrict variance = window->variance + down * line;
        read_noise(scene, window->row + down, window->column + first, length, variance + first);
        for (int64_t at = 0; at < line; at++)
            variance[at] *= variance[at];
        if (scene->own != 0)
            for (int64_t at = 0; at < line; at++)
                variance[at] += (values[at] < 0 ? 0 : values[at]) * scene->own;
    }
}

/* The exponential function of numbers that aren't above 0, as in _weights.py. */
INLINE void fall(double *restrict numbers, int64_t count)
{
    static const double terms[TERMS] = {
        1.0 / 479001600, 1.0 / 39916800, 1.0 / 3628800, 1.0 / 362880, 1.0 / 40320, 1.0 / 5040, 1.0 / 720,
        1.0 / 120,       1.0 / 24,       1.0 / 6,       1.0 / 2,      1.0,         1.0,
    };
    const double rounder = 0x1.8p52;
    for (int64_t at = 0; at < count; at++)
        numbers[at] = numbers[at] < -400 ? -400 : numbers[at];
    for (int64_t at = 0; at < count; at++) {
        const double shifted = numbers[at] * 0x1.71547652b82fep+0 + rounder, whole = shifted - rounder;
        const double rest = numbers[at] - whole * 0x1.62e42fep-1 - whole * 0x1.f473de6af278fp-30;
        double sum = terms[0], scale;
        uint64_t bits;
        for (int term = 1; term < TERMS; term++)
            sum = sum * rest + terms[term];
        memcpy(&bits, &shifted, sizeof bits);
        bits = (bits << 52) + (UINT64_C(1023) << 52);
        memcpy(&scale, &bits, sizeof scale);
        numbers[at] = sum * scale;
    }
}

/* The weights around the middle pixel. */
INLINE void weigh_evenly(const struct window *window)
{
    for (int64_t at = 0; at < window->side / STRANDS * STRANDS; at++) {
        const double place = (double)(at - window->before);
        window->even[at] = -(place * place * (0.5 * window->narrow));
    }
    fall(window->even, window->side / STRANDS * STRANDS);
}

/* The powers of a number to the places behind the middle and of another one to those before it: twice as many each time
 * by those that are known. */
INLINE void powers_of(const struct window *window, double behind, double before, double *powers)
{
    double *middle = powers + window->before;
    middle[0] = 1;
    for (int64_t known = 1; known <= window->before || known < window->side - window->before; known *= 2) {
        const int64_t most = 2 * known < window->side - window->before ? 2 * known : window->side - window->before;
        const int64_t least = 2 * known - 1 < window->before ? 2 * known - 1 : window->before;
        for (int64_t at = known; at < most; at++)
            middle[at] = middle[at - known] * behind;
        for (int64_t at = known; at <= least; at++)
            middle[-at] = middle[known - at] * before;
        behind *= behind;
        before *= before;
    }
}

/* The weights of rows and columns around a centre so far off the middle, but for the factor that a window has in
 * common. */
INLINE void weigh(const struct window *window, const double *off)
{
    double less[2] = {-(fabs(off[0]) * window->narrow), -(fabs(off[1]) * window->narrow)};
    fall(less, 2);
    for (int axis = 0; axis < 2; axis++) {
        const double behind = off[axis] < 0 ? less[axis] : 1 / less[axis], *restrict even = window->even;
        double *restrict weights = window->weights[0] + axis * window->side;
        powers_of(window, behind, 1 / behind, weights);
        for (int64_t at = 0; at < window->side; at++)
            weights[at] *= even[at];
    }
}

/* Makes the weights' squares of them. */
INLINE void square(const struct window *window)
{
    for (int64_t at = 0; at < 2 * window->side; at++)
        window->weights[0][at] *= window->weights[0][at];
}

/* The weights times the places from the centre to powers up to `most`. */
INLINE void multiply(const struct window *window, const double *off, int most)
{
    for (int power = 0; power < most; power++)
        for (int axis = 0; axis < 2; axis++) {
            const double *restrict last = window->weights[power] + axis * window->side;
            double *restrict next = window->weights[power + 1] + axis * window->side;
            for (int64_t at = 0; at < window->side; at++)
                next[at] = last[at] * ((double)(at - window->before) - off[axis]);
        }
}

/* The factor that the weights around a centre so far off the middle have in common. */
INLINE double common(const struct window *window, const double *off)
{
    double roots[2];
    for (int axis = 0; axis < 2; axis++)
        roots[axis] = -(off[axis] * off[axis] * (0.25 * window->narrow));
    fall(roots, 2);
    return roots[0] * roots[0] * (roots[1] * roots[1]);
}

/* The sums down the columns of pixels times weights of the rows, of each STRANDS-th row first. */
INLINE void sum_down(const struct window *window, const double *pixels, const double *weights, double *sums)
{
    const int64_t line = window->side;
    for (int64_t column = 0; column < line; column += STRANDS) {
        const double *values = pixels + column;
        strands strand[STRANDS];
        for (int at = 0; at < STRANDS; at++)
            strand[at] = *(const strands *)(values + at * line) * weights[at];
        for (int64_t row = STRANDS; row < line; row += STRANDS)
            for (int at = 0; at < STRANDS; at++)
                strand[at] += *(const strands *)(values + (row + at) * line) * weights[row + at];
        *(strands *)(sums + column) = (strand[0] + strand[2]) + (strand[1] + strand[3]);
    }
}

/* The sum of numbers times weights, of each STRANDS-th first. */
INLINE double sum_along(const double *numbers, const double *weights, int64_t count)
{
    strands strand = *(const strands *)numbers * *(const strands *)weights;
    for (int64_t at = STRANDS; at < count; at += STRANDS)
        strand += *(const strands *)(numbers + at) * *(const strands *)(weights + at);
    return (strand[0] + strand[2]) + (strand[1] + strand[3]);
}

/* The moments of pixels under the weights, with powers of the places down and to the right that are `most` together. */
INLINE void sum_up(const struct window *window, const double *pixels, int most, double moments[POWERS][POWERS])
{
    for (int down = 0; down <= most; down++) {
        sum_down(window, pixels, window->weights[down], window->sums[down]);
        for (int right = 0; right <= most - down; right++)
            moments[down][right] =
                sum_along(window->sums[down], window->weights[right] + window->side, window->side);
    }
}

/* Moves a centre until it stands still, and answers how far it went in its last step; infinity if it went none. */
INLINE double move(const struct window *window, const struct rules *rules, const double *middle, double *centre)
{
    const double start[2] = {centre[0], centre[1]};
    double last = INFINITY, sums[POWERS][POWERS];
    for (int64_t step = 0; step < rules->steps; step++) {
        const double off[2] = {centre[0] - middle[0], centre[1] - middle[1]};
        weigh(window, off);
        multiply(window, off, 1);
        sum_up(window, window->values, 1, sums);
        const double down = 2 * sums[1][0] / sums[0][0], right = 2 * sums[0][1] / sums[0][0];
        const double below = centre[0] - start[0], beside = centre[1] - start[1];
        if (!(sums[0][0] > 0 && sqrt(below * below + beside * beside) < window->sigma))
            break;
        centre[0] += down;
        centre[1] += right;
        last = sqrt(down * down + right * right);
        if (!(last > rules->still))
            break;
    }
    return last;
}

/* Fills a window, moves its centre to where it stands still, and sums up the light and the variance around that.
 * Answers how far the centre went last. */
INLINE double measure(const struct scene *scene, const struct window *window, int32_t number, const struct rules *rules,
                      double *centre, double *moments)
{
    const double middle[2] = {(double)(window->row + window->before), (double)(window->column + window->before)};
    double sums[2][POWERS][POWERS] = {{{0}}};
    weigh_evenly(window);
    read_values(scene, window, number);
    const double last = move(window, rules, middle, centre);
    const double off[2] = {centre[0] - middle[0], centre[1] - middle[1]}, factor = common(window, off);
    weigh(window, off);
    multiply(window, off, 2);
    sum_up(window, window->values, 2, sums[0]);
    read_variance(scene, window);
    square(window);
    multiply(window, off, 2);
    sum_up(window, window->variance, 2, sums[1]);
    for (int at = 0; at < MOMENTS; at++) {
        moments[at] = sums[0][at / POWERS][at % POWERS] * factor;
        moments[MOMENTS + at] = sums[1][at / POWERS][at % POWERS] * (factor * factor);
    }
    return last;
}

/* Sources have a number in the map, a middle pixel (rows first, then columns), a window's standard deviation and reach
 * from that pixel, at most `most`, and a centre, where it begins and will be found; `last` is how far that moved last.
 * `moments` has a line for each source of light's moments and one of the variance's, powers of places down times 3 plus
 * those to the right. The room is enough for the greatest window. */
LOOP VECTORS void windows(const float *light, const float *noises, int32_t each, double noise, double own,
                          const uint8_t *undefined, const int32_t *segments, int64_t height, int64_t width,
                          const int32_t *numbers, const int64_t *middles, const double *sigmas, const int64_t *reaches,
                          int64_t count, int64_t most, int64_t steps, double still, double *room, double *centres,
                          double *last, double *moments)
{
    const struct scene scene = {light, each ? noises : NULL, undefined, segments, height, width, noise, own};
    const struct sources sources = {middles, sigmas, reaches, count, most};
    const struct rules rules = {steps, still};
    if (height < 1 || width < 1 || count < 1)
        return;
    struct window next = window_of(&sources, 0);
    for (int64_t source = 0; source < count; source++) {
        struct window window = next;
        double centre[2] = {centres[source], centres[count + source]};
        if (source + 1 < count) {
            next = window_of(&sources, source + 1);
            call_up(&scene, &next);
        }
        take_room(&window, room);
        last[source] = measure(&scene, &window, numbers[source], &rules, centre, moments + 2 * MOMENTS * source);
        centres[source] = centre[0];
        centres[count + source] = centre[1];
    }
}
