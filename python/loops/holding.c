/* The pixels of a window's sources, by their places there: the boxes of components, and which pixels a tile has. */
#include "loops.h"
#include "places.h"

/* The boxes of components: the first row and the one behind the last of each, and then its columns. Owners are sources
 * by their numbers, of which each has a component; a component without pixels has an empty box. */
LOOP void component_boxes(const int64_t *places, const int32_t *owners, int64_t count, int64_t width,
                          const int64_t *components, int64_t sources, int64_t how_many, int64_t *boxes)
{
    struct line line = {0, 0, width};
    for (int64_t component = 0; component < how_many; component++) {
        boxes[4 * component] = boxes[4 * component + 2] = INT64_MAX;
        boxes[4 * component + 1] = boxes[4 * component + 3] = 0;
    }
    for (int64_t pixel = 0; pixel < count; pixel++) {
        if (owners[pixel] < 0 || owners[pixel] >= sources)
            continue;
        go_to(&line, places[pixel]);
        int64_t *box = boxes + 4 * components[owners[pixel]];
        const int64_t row = line.number, column = places[pixel] - line.first;
        box[0] = row < box[0] ? row : box[0];
        box[1] = row >= box[1] ? row + 1 : box[1];
        box[2] = column < box[2] ? column : box[2];
        box[3] = column >= box[3] ? column + 1 : box[3];
    }
}

/* The pixels whose owners have another number, which isn't 0: their places in an image of another width, where the
 * window begins at a place, the numbers less 1, and which of them are shown. How many they are is told. */
LOOP void picked_pixels(const int64_t *places, const int32_t *owners, const uint8_t *shown, int64_t count,
                        int64_t width, const int32_t *numbers, int64_t sources, int64_t whole, int64_t begin,
                        int64_t *own_places, int32_t *own_numbers, uint8_t *own_shown, int64_t *found)
{
    struct line line = {0, 0, width};
    int64_t own = 0;
    for (int64_t pixel = 0; pixel < count; pixel++) {
        const int32_t owner = owners[pixel], number = owner > 0 && owner < sources ? numbers[owner] : 0;
        go_to(&line, places[pixel]);
        own_places[own] = begin + line.number * whole + (places[pixel] - line.first);
        own_numbers[own] = number - 1;
        own_shown[own] = shown[pixel];
        own += number != 0;
    }
    *found = own;
}
