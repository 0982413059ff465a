/* The listing call of the column book, for C. Link with libjob.a and the kit's C libraries, as examples/handler.sh does. */
#ifndef HARVEST_H
#define HARVEST_H

#include <stddef.h>
#include <stdint.h>

/*
 * Makes the listing of a job in a buffer, whole or not at all.
 *
 * Answers the length of the listing, or minus the number of the refusal:
 *   -24  the job is longer than 60,000 bytes
 *   -21  the buffer is too short for the whole listing
 * A refused call leaves the buffer as it was, and a done one leaves the bytes behind the listing.
 *
 * The two parts of memory must not overlap, and neither pointer may be NULL, even at length 0.
 */
int64_t harvest_listing(const uint8_t *job, size_t job_length, uint8_t *out, size_t out_length);

#endif
