/* Takes the reasons out of the lines of fcbench_judge, as fcbench_refute reads them. Copy this file. Needs C99.
 *
 *     size_t length = fcbench_reasons(lines, needed, reasons); // room for `needed` bytes */
#ifndef FCBENCH_REASONS_H
#define FCBENCH_REASONS_H

#include <stddef.h>
#include <stdint.h>
#include <string.h>

/* Of each line that begins with `; {` what follows the `; `, with the end of the line. It gives how many bytes these are: fewer than
 * `length`, or none. `reasons` may be `lines`. */
static inline size_t fcbench_reasons(const uint8_t *lines, size_t length, uint8_t *reasons) {
    size_t count = 0;
    for (size_t at = 0; at < length;) {
        const uint8_t *end = memchr(lines + at, '\n', length - at);
        size_t next = end == NULL ? length : (size_t)(end - lines) + 1;
        if (next - at > 3 && memcmp(lines + at, "; {", 3) == 0) {
            memmove(reasons + count, lines + at + 2, next - at - 2);
            count += next - at - 2;
        }
        at = next;
    }
    return count;
}

#endif
