#include "plain.h"

#include <string.h>

static const uint8_t low[15] = {1, 0, 1, 1, 2, 0, 1, 1, 3, 0, 1, 1, 4, 0, 8};
static const uint8_t high[15] = {1, 0, 1, 3, 2, 0, 1, 10, 3, 0, 1, 2, 4, 0, 8};

/* The tags and lengths of a whole letter by two words, its three small numbers one by one. */
static int head_fits(const uint8_t *b)
{
    uint64_t first, second;
    memcpy(&first, b, 8);
    memcpy(&second, b + 8, 8);
    first = __builtin_bswap64(first);
    second = __builtin_bswap64(second);
    return (first & 0xFFFFFF00FFFFFF00) == 0x0100010002000100 && (second & 0xFFFFFF00FFFFFF00) == 0x0300010004000800
        && (uint8_t)(b[3] - 1) < 3 && (uint8_t)(b[7] - 1) < 10 && (uint8_t)(b[11] - 1) < 2;
}

struct goxumaphi_checked plain_letter_check(const uint8_t *bytes, size_t len)
{
    struct goxumaphi_checked no = {GOXUMAPHI_NO_LETTER, 0};
    if (len >= 16 && head_fits(bytes)) {
        if (len == GOXUMAPHI_LETTER_LEN)
            return (struct goxumaphi_checked){0, GOXUMAPHI_LETTER_LEN};
        no.place = len < GOXUMAPHI_LETTER_LEN ? len : GOXUMAPHI_LETTER_LEN;
        return no;
    }
    size_t head = len < 15 ? len : 15;
    while (no.place < head && bytes[no.place] >= low[no.place] && bytes[no.place] <= high[no.place])
        no.place++;
    return no;
}

uint64_t plain_letter_write(uint64_t kind, uint64_t origin, uint64_t slot, uint64_t code, uint8_t *buffer, size_t len)
{
    if (kind - 1 > 2 || origin - 1 > 9 || slot - 1 > 1)
        return GOXUMAPHI_OUT_OF_RANGE;
    if (len < GOXUMAPHI_LETTER_LEN)
        return GOXUMAPHI_SHORT_BUFFER;
    uint64_t first = __builtin_bswap64(0x0100010002000100 | kind << 32 | origin);
    uint64_t second = __builtin_bswap64(0x0300010004000800 | slot << 32);
    uint64_t third = __builtin_bswap64(code);
    memcpy(buffer, &first, 8);
    memcpy(buffer + 8, &second, 8);
    memcpy(buffer + 15, &third, 8);
    return 0;
}
