/* What other loops do with masks. */
#ifndef MASKS_H
#define MASKS_H

#include <stdint.h>

/* The reach of a mask at most: as many rows above and below are counted in 16 bits. */
enum { MOST_REACH = 32767 };

/* The mask with all pixels up to so many columns and rows away. There is room for `width` numbers in `counts`, and for
 * `width + 2 * reach` in each of two lines. */
void grow_mask(const uint8_t *mask, int64_t height, int64_t width, int64_t reach, uint16_t *counts, uint8_t *lines,
               uint8_t *out);

#endif
