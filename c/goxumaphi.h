/* Letters as bytes, for firmware: the check and the writer, as they are proved in the Rattle crates `wire` and `firmware`.
 *
 * A letter is 23 bytes. Each of its four fields is a tag of one byte, a length of two bytes, high byte first, and its content:
 *
 *     01 0001 kind    1 INIT, 2 ECHO, 3 READY
 *     02 0001 origin  the seat that the letter is about, 1 to 10
 *     03 0001 slot    1 or 2
 *     04 0008 code    any 64-bit number, high byte first
 *
 * Both calls take every number and every length, keep no state, allocate nothing and return. They may be called from
 * several threads, so long as no thread writes a buffer that another one uses. Where a length is 0 the pointer is not
 * followed; otherwise it must point to that many bytes.
 */
#ifndef GOXUMAPHI_H
#define GOXUMAPHI_H

#include <stddef.h>
#include <stdint.h>

#ifdef __cplusplus
extern "C" {
#endif

#define GOXUMAPHI_LETTER_LEN 23

/* The numbers that a denied call answers. */
#define GOXUMAPHI_OUT_OF_RANGE 5
#define GOXUMAPHI_NO_LETTER 12
#define GOXUMAPHI_SHORT_BUFFER 13

struct goxumaphi_checked {
    /* 0: the bytes are a letter. GOXUMAPHI_NO_LETTER: they are none. */
    uint64_t denial;
    /* How many bytes, counted from the front, begin some letter. For a letter 23; for bytes that are none the index
     * of the first wrong byte, or the length where bytes are only missing. */
    uint64_t place;
};

/* Are these bytes one letter, and nothing behind it? */
struct goxumaphi_checked goxumaphi_letter_check(const uint8_t *bytes, size_t len);

/* Writes a letter into the first 23 bytes of a buffer and touches no other. Answers
 *     0                       written;
 *     GOXUMAPHI_OUT_OF_RANGE  kind is not 1 to 3, origin not 1 to 10, or slot not 1 or 2;
 *     GOXUMAPHI_SHORT_BUFFER  the numbers are right, but the buffer is shorter than 23 bytes.
 * A call that does not answer 0 has left the whole buffer as it was. */
uint64_t goxumaphi_letter_write(uint64_t kind, uint64_t origin, uint64_t slot, uint64_t code, uint8_t *buffer, size_t len);

#ifdef __cplusplus
}
#endif

#endif
