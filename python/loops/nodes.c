/* The pixels of nodes that several parts make together. */
#include "loops.h"
#include "places.h"
#include "stored.h"

/* Lists the pixels whose owners are nodes, by the owners' places among these, or one below 0: those of each node one
 * behind the other, in their order, by rows, columns and numbers. `starts` gets where each node begins, and behind them
 * how many pixels all have; it has room for two more than there are nodes. */
LOOP void node_pixels(const int64_t *places, const int32_t *values, const int32_t *owners, int64_t count,
                      const int64_t *nodes, int64_t sources, int64_t how_many, int64_t width, int64_t *starts,
                      int64_t *rows, int64_t *columns, int64_t *own_values)
{
    for (int64_t node = 0; node < how_many + 2; node++)
        starts[node] = 0;
    for (int64_t pixel = 0; pixel < count; pixel++) {
        const int64_t owner = owners[pixel];
        if (owner >= 0 && owner < sources && nodes[owner] >= 0)
            starts[nodes[owner] + 2]++;
    }
    for (int64_t node = 2; node < how_many + 2; node++)
        starts[node] += starts[node - 1];
    struct line line = {0, 0, width};
    for (int64_t pixel = 0; pixel < count; pixel++) {
        const int64_t owner = owners[pixel];
        if (owner < 0 || owner >= sources || nodes[owner] < 0)
            continue;
        /* Which moves on to where the next node begins. */
        const int64_t own = starts[nodes[owner] + 1]++;
        go_to(&line, places[pixel]);
        rows[own] = line.number;
        columns[own] = places[pixel] - line.first;
        own_values[own] = values[pixel];
    }
}

/* The greatest number beside a pixel that is below a limit, if it is greater than another. */
static inline int64_t greatest_of(const uint32_t *numbers, int64_t height, int64_t width, int64_t row, int64_t column,
                                  int64_t limit, int64_t greatest)
{
    const int64_t top = row > 0 ? row - 1 : 0, bottom = row + 1 < height ? row + 1 : height - 1;
    const int64_t left = column > 0 ? column - 1 : 0, right = column + 1 < width ? column + 1 : width - 1;
    for (int64_t y = top; y <= bottom; y++)
        for (int64_t x = left; x <= right; x++) {
            const int64_t number = number_of(numbers[y * width + x]);
            greatest = number < limit && number > greatest ? number : greatest;
        }
    return greatest;
}

/* For each node the greatest number beside its pixels that is below its limit, which none of its own is; or the least
 * number of all. */
LOOP void greatest_below(const uint32_t *numbers, int64_t height, int64_t width, const int64_t *rows,
                         const int64_t *columns, const int64_t *starts, int64_t nodes, int64_t count,
                         const int64_t *limits, int64_t *greatest)
{
    for (int64_t node = 0; node < nodes; node++) {
        const int64_t end = node + 1 < nodes ? starts[node + 1] : count;
        greatest[node] = INT32_MIN;
        for (int64_t pixel = starts[node]; pixel < end; pixel++)
            greatest[node] =
                greatest_of(numbers, height, width, rows[pixel], columns[pixel], limits[node], greatest[node]);
    }
}

/* Gives pixels the numbers of their owners, and tells which are shown: of the owners with a limit those with greater
 * numbers, and of others, which have the greatest limit of all, those that were. */
LOOP void renumbered(const int32_t *values, const int32_t *owners, const uint8_t *shown, int64_t count,
                     const int32_t *numbers, const int64_t *limits, int64_t sources, int32_t *restrict own_numbers,
                     uint8_t *restrict own_shown)
{
    for (int64_t pixel = 0; pixel < count; pixel++) {
        const int64_t owner = owners[pixel] >= 0 && owners[pixel] < sources ? owners[pixel] : 0;
        own_numbers[pixel] = numbers[owner];
        own_shown[pixel] = limits[owner] == INT64_MAX ? shown[pixel] : values[pixel] > limits[owner];
    }
}
