/* Images less their levels, and where they are undefined. */
#include "loops.h"

#include <float.h>
#include <math.h>

/* So many pixels are looked at twice while they are at hand: compilers make little of loops that do both at once. */
enum { AT_ONCE = 4096 };

/* So many times the image less its level, or 0 for that where a pixel isn't finite; and which of them aren't. */
VECTORS LOOP void residuals(const float *image, const float *level, int64_t count, double times,
                            float *restrict residual, uint8_t *restrict undefined)
{
    const float by = (float)times, nothing = 0 * by;
    for (int64_t first = 0, end; first < count; first = end) {
        end = count - first < AT_ONCE ? count : first + AT_ONCE;
        for (int64_t i = first; i < end; i++)
            undefined[i] = !(fabsf(image[i]) <= FLT_MAX);
        for (int64_t i = first; i < end; i++) {
            const float above = (image[i] - level[i]) * by;
            residual[i] = fabsf(image[i]) <= FLT_MAX ? above : nothing;
        }
    }
}
