/* All of the plain C in one unit, as the library is one unit: so the compiler may inline throughout.
 * PLAIN names this compilation's table. */
#include "plain.h"
#include "plain_checksum.h"
#include "plain_segment.h"
#include "plain_station.h"
#include "plain_model.h"
#include "plain_program.h"

const struct plain PLAIN = {
    .checksum = checksum,
    .deferred = deferred_checksum,
    .read = read_header,
    .write = write_header,
    .arrive = arrive,
    .arrive_octets = arrive_octets,
    .arrive_by_value = arrive_by_value,
    .arrive_octets_by_value = arrive_octets_by_value,
    .play = play,
    .run = run,
    .run_unframed = run_unframed,
};
