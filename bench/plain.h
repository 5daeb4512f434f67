/* The letter check and the writer, written by hand in C, to compare the proved ones with. */
#ifndef PLAIN_H
#define PLAIN_H

#include "goxumaphi.h"

struct goxumaphi_checked plain_letter_check(const uint8_t *bytes, size_t len);
uint64_t plain_letter_write(uint64_t kind, uint64_t origin, uint64_t slot, uint64_t code, uint8_t *buffer, size_t len);

#endif
