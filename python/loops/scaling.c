/* From floating-point numbers to the whole numbers that the program reads. */
#include "loops.h"
#include "stored.h"

#include <float.h>
#include <math.h>

/* The nearest whole numbers of so many times the scaled ones, no further from 0 than the greatest, which 32 bits hold;
 * and the least number of 32 bits for what isn't finite. */
VECTORS
LOOP void stored_numbers(const float *scaled, int64_t count, double times, double greatest, uint32_t *numbers)
{
    const float by = (float)times, most = (float)greatest;
    for (int64_t place = 0; place < count; place++) {
        const float value = scaled[place] * by, nearest = rintf(value);
        const float high = nearest > -most ? nearest : -most, cut = high < most ? high : most;
        numbers[place] = stored(fabsf(value) <= FLT_MAX ? (int32_t)cut : INT32_MIN);
    }
}
