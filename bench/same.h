/* That the variants answer alike: the first difference ends the run with a message. Structs are compared
 * field by field, since some have padding. */
#ifndef SAME_H
#define SAME_H

#include "plain.h"

void same(const char *what, unsigned long long proved, unsigned long long plain);
void same_octets(const char *what, const uint8_t *proved, const uint8_t *plain, size_t size);
void same_header(const char *what, const struct tabor_header *proved, const struct tabor_header *plain);
void same_segment(const char *what, const struct tabor_segment *proved, const struct tabor_segment *plain);
void same_record(const char *what, const struct tabor_record *proved, const struct tabor_record *plain);

/* How many comparisons were made so far. */
unsigned long long same_so_far(void);

#endif
