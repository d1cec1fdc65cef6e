/* The map of an image, from the pixels that tiles give to sources. */
#include "loops.h"

/* Each number of a map, but 0, becomes that at its place among `length` others; one below 0 is a place from the end. */
LOOP void map_renumbered(int32_t *map, int64_t count, const int32_t *numbers, int64_t length)
{
    for (int64_t place = 0; place < count; place++)
        if (map[place] != 0)
            map[place] = numbers[map[place] < 0 ? length + map[place] : map[place]];
}

/* Pixels get the number of their owners, counted from `first`, below 0 where they aren't shown. With `alone` those alone
 * get one that have none. */
LOOP void put_owners(int32_t *map, int64_t count, const int64_t *pixels, const int32_t *owners, const uint8_t *shown,
                     int32_t first, int32_t alone)
{
    for (int64_t place = 0; place < count; place++)
        if (!alone || map[pixels[place]] == 0)
            map[pixels[place]] = shown[place] ? first + owners[place] : -(first + owners[place]);
}
