/*
 * A program that only listens, without a C library: linked with --gc-sections
 * it has of the library what a display needs.
 */
#include "pansdaoh.h"

void *memcpy(void *to, const void *from, size_t length) {
    size_t i;
    for (i = 0; i < length; i++)
        ((volatile uint8_t *)to)[i] = ((const uint8_t *)from)[i];
    return to;
}

uint64_t listens(struct pansdaoh_listener *listener, const uint8_t *bucket, size_t length) {
    pansdaoh_start(listener->state, 5);
    return pansdaoh_step(listener->state, bucket, length).answer +
           pansdaoh_lost(listener->state).answer + pansdaoh_heard(listener->state) +
           pansdaoh_elapsed(listener->state) + pansdaoh_line(bucket, length, 0).tare;
}
