/* The rows and columns of places in a flat image. */
#ifndef PLACES_H
#define PLACES_H

#include <stdint.h>

/* A row of an image of some width, by its number and its first place. */
struct line {
    int64_t number, first, width;
};

/* Goes to the row of a place: one in the same row or in the next one is found without a division. */
static inline void go_to(struct line *line, int64_t place)
{
    int64_t column = place - line->first;
    if (column >= 0 && column < line->width)
        return;
    if (column >= line->width && column < 2 * line->width)
        line->number++;
    else
        line->number = place / line->width;
    line->first = line->number * line->width;
}

#endif
