/* The pixels of a window's threshold set, row by row: each has a place in the window, a number and a label, which is
 * that of its source, or 0. Pixels side by side are found by going through its row, the one above and the one below. */
#include "loops.h"
#include "stored.h"

/* Of so many pixels one is looked for at once, and so many are counted at a time; and so many rows further on it is
 * sooner to look for a row's pixels than to go through those before. */
enum { BLOCK = 32, ROUND = 1 << 20, FAR = 4 };

/* Whether some numbers reach a threshold. */
static inline __attribute__((always_inline)) int reach(const uint32_t *numbers, int64_t count, int64_t threshold)
{
    int32_t greatest = INT32_MIN;
    for (int64_t place = 0; place < count; place++) {
        const int32_t number = number_of(numbers[place]);
        greatest = number > greatest ? number : greatest;
    }
    return greatest >= threshold;
}

/* How many numbers reach a threshold. */
VECTORS
LOOP void reaching(const uint32_t *numbers, int64_t count, int64_t threshold, int64_t *found)
{
    if (threshold > INT32_MAX) {
        *found = 0;
        return;
    }
    const int32_t least = threshold < INT32_MIN ? INT32_MIN : (int32_t)threshold;
    int64_t all = 0;
    for (int64_t begin = 0; begin < count; begin += ROUND) {
        const int64_t end = begin + ROUND < count ? begin + ROUND : count;
        /* In 32 bits, of which more are worked on at once. */
        int32_t own = 0;
        for (int64_t place = begin; place < end; place++)
            own += number_of(numbers[place]) >= least;
        all += own;
    }
    *found = all;
}

/* Finds the pixels of at least a threshold among so many, the first of which has this place, and how many they are.
 * There is room for one more. */
VECTORS
LOOP void threshold_set(const uint32_t *numbers, const uint32_t *segments, int64_t count, int64_t threshold,
                        int64_t first, int64_t *places, int32_t *values, int32_t *labels, int64_t *found)
{
    int64_t own = 0;
    for (int64_t begin = 0; begin < count; begin += BLOCK) {
        const int64_t end = begin + BLOCK < count ? begin + BLOCK : count;
        if (end - begin == BLOCK && !reach(numbers + begin, BLOCK, threshold))
            continue;
        /* Each is put where the next one found stands, which takes no longer than to ask before. */
        for (int64_t place = begin; place < end; place++) {
            const int32_t value = number_of(numbers[place]);
            places[own] = first + place;
            values[own] = value;
            labels[own] = number_of(segments[place]);
            own += value >= threshold;
        }
    }
    *found = own;
}

/* Behind the last pixel stands one with the least number and the label 0 for all that aren't there. */
struct pixels {
    const int64_t *places;
    const int32_t *values;
    const int32_t *labels;
    int64_t count, width;
};

/* The pixels of a row of the window by their columns, with one column before the first and one behind the last. */
struct row {
    int64_t *at;
    int64_t first;      /* the place of the row's first column */
    int64_t begin, end; /* which pixels are its own */
};

/* A row and those beside it. */
struct rows {
    struct row above, own, below;
};

/* Makes a row, that had others, one with the pixels from one on whose places the window's row has. */
static inline void fill(const struct pixels *it, struct row *row, int64_t begin, int64_t first)
{
    for (int64_t pixel = row->begin; pixel < row->end; pixel++)
        row->at[it->places[pixel] - row->first + 1] = it->count;
    row->first = first;
    row->begin = row->end = begin;
    for (; row->end < it->count && it->places[row->end] < first + it->width; row->end++)
        row->at[it->places[row->end] - first + 1] = row->end;
}

/* Rows without pixels, far above the window; `room` is for three. */
static struct rows no_rows(const struct pixels *it, int64_t *room)
{
    const int64_t wide = it->width + 2, first = -FAR * it->width;
    for (int64_t x = 0; x < 3 * wide; x++)
        room[x] = it->count;
    return (struct rows){{room, first, 0, 0}, {room + wide, first, 0, 0}, {room + 2 * wide, first, 0, 0}};
}

/* The first pixel whose place isn't before another. */
static int64_t not_before(const struct pixels *it, int64_t place)
{
    int64_t begin = 0, end = it->count;
    while (begin < end) {
        const int64_t middle = begin + (end - begin) / 2;
        if (it->places[middle] < place)
            begin = middle + 1;
        else
            end = middle;
    }
    return begin;
}

/* Goes to the row of a place, wherever that is. */
static void jump(const struct pixels *it, struct rows *rows, int64_t place)
{
    const int64_t first = place / it->width * it->width;
    fill(it, &rows->above, not_before(it, first - it->width), first - it->width);
    fill(it, &rows->own, rows->above.end, first);
    fill(it, &rows->below, rows->own.end, first + it->width);
}

/* Goes on to the row of a pixel. */
static inline void go_on(const struct pixels *it, struct rows *rows, int64_t pixel)
{
    const int64_t place = it->places[pixel];
    if (place < rows->own.first || place >= rows->own.first + FAR * it->width)
        jump(it, rows, place);
    while (place >= rows->own.first + it->width) {
        const struct row gone = rows->above;
        rows->above = rows->own;
        rows->own = rows->below;
        rows->below = gone;
        fill(it, &rows->below, rows->own.end, rows->own.first + it->width);
    }
}

/* The eight neighbours of a pixel of the row: right, below from left to right, left, and above from right to left. */
static inline void find_neighbours(const struct pixels *it, const struct rows *rows, int64_t pixel, int64_t found[8])
{
    const int64_t left = it->places[pixel] - rows->own.first;
    const int64_t *above = rows->above.at + left, *own = rows->own.at + left, *below = rows->below.at + left;
    found[0] = own[2];
    found[1] = below[0];
    found[2] = below[1];
    found[3] = below[2];
    found[4] = own[0];
    found[5] = above[2];
    found[6] = above[1];
    found[7] = above[0];
}

/* The first of a pixel's neighbours with the greatest number, if that is greater than its own, and else itself. */
static inline int64_t uphill(const struct pixels *it, struct rows *rows, int64_t pixel)
{
    int64_t beside[8], best = pixel;
    go_on(it, rows, pixel);
    find_neighbours(it, rows, pixel, beside);
    for (int at = 0; at < 8; at++)
        best = it->values[beside[at]] > it->values[best] ? beside[at] : best;
    return best;
}

/* The label of the first of a pixel's neighbours with the greatest number among those with a label and a number above
 * the least one, and else 0. */
static inline int32_t highest_beside(const struct pixels *it, struct rows *rows, int64_t pixel)
{
    int64_t beside[8], best = it->count;
    go_on(it, rows, pixel);
    find_neighbours(it, rows, pixel, beside);
    for (int at = 0; at < 8; at++)
        if (it->labels[beside[at]] && it->values[beside[at]] > it->values[best])
            best = beside[at];
    return it->labels[best];
}

/* Gives each pixel without a label that of the one where the way uphill ends: at one with a label, or at a peak, which
 * may have none. */
static void share_by_ways(const struct pixels *it, int64_t *room, int64_t *way, int32_t *labels)
{
    struct rows rows = no_rows(it, room);
    for (int64_t pixel = 0; pixel < it->count; pixel++)
        way[pixel] = labels[pixel] ? pixel : uphill(it, &rows, pixel);
    for (int64_t pixel = 0; pixel < it->count; pixel++) {
        int64_t top = pixel;
        while (way[top] != top)
            top = way[top] = way[way[top]];
        way[pixel] = top;
        labels[pixel] = labels[top];
    }
}

/* Gives pixels without a label, as long as one of them gets one, those of their highest neighbours: all at once. There
 * is room for all pixels and their labels. */
static void share_by_neighbours(const struct pixels *it, int64_t *room, int64_t *rest, int32_t *given, int32_t *labels)
{
    int64_t left = 0;
    int32_t any = 1;
    for (int64_t pixel = 0; pixel < it->count; pixel++)
        if (!labels[pixel])
            rest[left++] = pixel;
    while (left && any) {
        struct rows rows = no_rows(it, room);
        int64_t still = 0;
        any = 0;
        for (int64_t at = 0; at < left; at++)
            any |= given[at] = highest_beside(it, &rows, rest[at]);
        for (int64_t at = 0; at < left; at++) {
            labels[rest[at]] = given[at];
            if (!given[at])
                rest[still++] = rest[at];
        }
        left = still;
    }
}

/* Gives pixels without a label that of the one to which the way uphill leads, and what a peak without one holds that of
 * the neighbour that stands highest. There is room for three rows, each with two columns more, and twice for all pixels.
 */
LOOP void share_out(const int64_t *places, const int32_t *values, int32_t *labels, int64_t count, int64_t width,
                    int64_t *room, int64_t *way, int32_t *given)
{
    const struct pixels it = {places, values, labels, count, width};
    share_by_ways(&it, room, way, labels);
    share_by_neighbours(&it, room, way, given, labels);
}

/* Where pixels touch: the labels of both, the lesser first, and the lesser of their numbers. */
struct touching {
    int64_t *lesser, *greater, *levels, count;
};

static inline void touch(const struct pixels *it, struct touching *found, int64_t one, int64_t other)
{
    const int32_t label = it->labels[one], its = it->labels[other];
    if (!label || !its || label == its)
        return;
    found->lesser[found->count] = label < its ? label : its;
    found->greater[found->count] = label < its ? its : label;
    found->levels[found->count] = it->values[one] < it->values[other] ? it->values[one] : it->values[other];
    found->count++;
}

/* All pairs of pixels side by side with two labels that some pixels have with those behind them, at most four each.
 * There is room for three rows, each with two columns more. */
LOOP void touching(const int64_t *places, const int32_t *values, const int32_t *labels, int64_t count, int64_t width,
                   int64_t first, int64_t end, int64_t *room, int64_t *lesser, int64_t *greater, int64_t *levels,
                   int64_t *found)
{
    const struct pixels it = {places, values, labels, count, width};
    struct touching pairs = {lesser, greater, levels, 0};
    struct rows rows = no_rows(&it, room);
    for (int64_t pixel = first; pixel < end; pixel++) {
        go_on(&it, &rows, pixel);
        const int64_t left = places[pixel] - rows.own.first, *below = rows.below.at + left;
        touch(&it, &pairs, pixel, rows.own.at[left + 2]);
        for (int step = 0; step < 3; step++)
            touch(&it, &pairs, pixel, below[step]);
    }
    *found = pairs.count;
}

/* Keeps the pixels whose label has an owner, by label 0 for none: their places and values, the owner, and which of them
 * were shown before. How many they are is told. */
LOOP void owned(const int64_t *places, const int32_t *values, const int32_t *labels, int64_t count,
                const uint8_t *shown, const int32_t *owners, int64_t sources, int64_t *own_places, int32_t *own_values,
                int32_t *own_labels, uint8_t *own_shown, int64_t *found)
{
    int64_t own = 0;
    for (int64_t pixel = 0; pixel < count; pixel++) {
        const int32_t label = labels[pixel], owner = label > 0 && label < sources ? owners[label] : 0;
        own_places[own] = places[pixel];
        own_values[own] = values[pixel];
        own_labels[own] = owner;
        own_shown[own] = shown[pixel];
        own += owner != 0;
    }
    *found = own;
}
