/* What the calls are given: numbers that differ from call to call, the same in every run. */
#ifndef INPUTS_H
#define INPUTS_H

#include "tabor.h"

enum { STREAM = 65535 };

/* One arrival for each rule that is timed. */
enum arrival { AT_CLOSED, AT_LISTEN, AT_SYN_SENT, AT_SYN_RECEIVED, IN_WINDOW, OUT_OF_WINDOW, ARRIVALS };

uint32_t draw(void);
uint32_t below(uint32_t n);
void fill(uint8_t *octets, size_t size);

/* A record of the forms in that state. */
struct tabor_record record_in(uint8_t state);

/* A segment from the record's peer to its station. */
struct tabor_segment toward(const struct tabor_record *r, uint32_t seq, uint32_t ack, uint8_t control);

/* The record that an arrival meets, and the segment that arrives. */
struct tabor_record record_for(enum arrival kind);
struct tabor_segment segment_for(enum arrival kind, const struct tabor_record *r);

/* The right checksum put into octets, of which 20 are there whatever the size. */
void seal(const struct tabor_segment *g, uint8_t *octets, size_t size);

/* The segment's twenty octets, FIN or not, with the right checksum. */
void octets_of(const struct tabor_segment *g, uint8_t out[20]);

/* Both stations closed, nothing on the links. */
struct tabor_model model_at_rest(void);

/* Events in octets: a delivery every other time, the rest calls, copies and losses. */
void make_events(uint8_t *octets, size_t count);

/* Datagrams of 40 octets back to back, as many as the size holds: openings, each with a wrong
 * acknowledgment, and resets that lead back to LISTEN. How many octets they are. */
size_t make_stream(uint8_t *octets, size_t size);

/* ---- for the check that all variants answer alike: right, nearly right and wrong */

struct tabor_record any_record(void);
struct tabor_segment any_segment(const struct tabor_record *r);
/* How many octets, at most 64. */
size_t any_octets(const struct tabor_segment *g, uint8_t out[64]);
struct tabor_model any_model(void);

#endif
