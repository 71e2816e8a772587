/* A plain writer of a listing out of memory, from document 02, note 1: what tests/library/benchmark times r8_listing against. */
#include <stddef.h>
#include <stdint.h>

static uint8_t *put(uint8_t *to, uint16_t word) {
    static const char digits[16] = {'0', '1', '2', '3', '4', '5', '6', '7', '8', '9', 'A', 'B', 'C', 'D', 'E', 'F'};
    *to++ = digits[word >> 12];
    *to++ = digits[word >> 8 & 15];
    *to++ = digits[word >> 4 & 15];
    *to++ = digits[word & 15];
    return to;
}

uint32_t plain_listing(const uint16_t *memory, size_t memory_count, size_t first, size_t count,
                       uint8_t *text, size_t text_count) {
    if (memory_count == 0 || memory_count > 65536) return 1;
    if (first > memory_count || count > memory_count - first) return 4;
    if (text_count < 10 * count) return 10;
    for (size_t address = first; address < first + count; address++) {
        text = put(text, (uint16_t)address);
        *text++ = ' ';
        text = put(text, memory[address]);
        *text++ = '\n';
    }
    return 0;
}
