/* Rows of an image as they stand in its file, where each number has its highest byte first. */
#define _XOPEN_SOURCE 700 /* for pread */
#define _FILE_OFFSET_BITS 64
#include "loops.h"

#include <errno.h>
#include <unistd.h>

/* Reads so many bytes from a place in a file on. It returns 0, the number of the error, or -1 where the file ends. */
static int read_bytes(int file, uint8_t *bytes, int64_t count, int64_t place)
{
    while (count > 0) {
        const ssize_t done = pread(file, bytes, (size_t)count, place);
        if (done == 0 || (done < 0 && errno != EINTR))
            return done == 0 ? -1 : errno;
        if (done > 0) {
            bytes += done;
            count -= done;
            place += done;
        }
    }
    return 0;
}

/* Numbers of so many bytes, in this machine's order from here on. */
VECTORS
static void turn(void *numbers, int64_t count, int64_t size)
{
#if __BYTE_ORDER__ == __ORDER_LITTLE_ENDIAN__
    uint16_t *const halves = numbers;
    uint32_t *const words = numbers;
    uint64_t *const longs = numbers;
    for (int64_t place = 0; size == 2 && place < count; place++)
        halves[place] = __builtin_bswap16(halves[place]);
    for (int64_t place = 0; size == 4 && place < count; place++)
        words[place] = __builtin_bswap32(words[place]);
    for (int64_t place = 0; size == 8 && place < count; place++)
        longs[place] = __builtin_bswap64(longs[place]);
#endif
}

/* So many numbers of `size` bytes from each of some rows. The first stands at a place in the file, and those of the
 * next row `step` bytes behind it. `failed` gets what `read_bytes` returns. */
LOOP void read_rows(int64_t file, int64_t place, int64_t step, int64_t rows, int64_t columns, int64_t size,
                    uint8_t *numbers, int32_t *failed)
{
    const int64_t bytes = columns * size;
    *failed = 0;
    for (int64_t row = 0; row < rows && *failed == 0; row++) {
        uint8_t *const own = numbers + row * bytes;
        *failed = read_bytes((int)file, own, bytes, place + row * step);
        turn(own, columns, size);
    }
}
