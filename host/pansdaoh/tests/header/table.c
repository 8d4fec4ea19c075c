/*
 * Builds list S of the sample yard with r 1 and prints for tag 5, which lies in
 * two data buckets, each tune-in, heard, elapsed and lines. The cycle is held
 * against its size and against that of a list in which a line came and went, each
 * lookup against a listener's own steps, with each of its buckets lost in turn too,
 * and the mean wait against the lookups of all tags.
 */
#include "pansdaoh.h"

#include <stdio.h>
#include <string.h>

static const char LIST[] = "         3     0   0     0\n"
                           "         5     0   0     0\n"
                           "         5     0   0     0\n"
                           "         8     0   0     0\n"
                           "         9     0   0     0\n";

static uint8_t image[20 * PANSDAOH_BUCKET];
static uint8_t lines[5 * PANSDAOH_LINE];

/* How many of the lines that a step names are the tag's. */
static uint64_t named(const uint8_t *bucket, struct pansdaoh_step_answer step, uint64_t tag) {
    uint64_t i, count = 0;
    for (i = step.first; i < step.first + step.count; i++) {
        struct pansdaoh_line_answer line = pansdaoh_line(bucket, PANSDAOH_BUCKET, i);
        count += line.number == 0 && line.present && line.tag == tag && line.tare == 0;
    }
    return count;
}

/* Steps a listener to its end; 0 if it says what the lookup said. */
static int compare(uint64_t buckets, uint64_t tag, uint64_t place, struct pansdaoh_found found) {
    struct pansdaoh_listener listener;
    struct pansdaoh_step_answer step;
    uint64_t matched = 0;
    pansdaoh_start(listener.state, tag);
    do {
        const uint8_t *bucket = image + PANSDAOH_BUCKET * place;
        step = pansdaoh_step(listener.state, bucket, PANSDAOH_BUCKET);
        matched += named(bucket, step, tag);
        place = (place + step.value) % buckets;
    } while (step.answer == PANSDAOH_STEP_DOZE);
    return step.answer != PANSDAOH_STEP_FOUND || found.end != PANSDAOH_FOUND ||
           pansdaoh_heard(listener.state) != found.heard ||
           pansdaoh_elapsed(listener.state) != found.elapsed || matched != found.lines;
}

/*
 * Steps a listener whose radio loses one bucket, that behind so many others; 0 if it
 * still gets what the lookup got.
 */
static int lose_one(uint64_t buckets, uint64_t tag, uint64_t tune_in, uint64_t others,
                    struct pansdaoh_found found) {
    struct pansdaoh_listener listener;
    struct pansdaoh_step_answer step;
    uint64_t place = tune_in, matched = 0, heard = 0;
    pansdaoh_start(listener.state, tag);
    do {
        if (heard++ == others) {
            step = pansdaoh_lost(listener.state);
            /* What was taken is void. */
            matched = 0;
        } else {
            const uint8_t *bucket = image + PANSDAOH_BUCKET * place;
            step = pansdaoh_step(listener.state, bucket, PANSDAOH_BUCKET);
            matched += named(bucket, step, tag);
        }
        place = (place + step.value) % buckets;
    } while (step.answer == PANSDAOH_STEP_DOZE);
    if (step.answer != PANSDAOH_STEP_FOUND || matched != found.lines ||
        pansdaoh_heard(listener.state) != heard || heard <= others + 1 ||
        pansdaoh_elapsed(listener.state) + tune_in > 4 * buckets)
        return 1;
    step = pansdaoh_lost(listener.state);
    return step.answer != PANSDAOH_STEP_REFUSED || step.value != PANSDAOH_REFUSED_ENDED ||
           pansdaoh_heard(listener.state) != heard;
}

/* A line comes and goes in list S; 0 if list and cycle are what they were. */
static int come_and_go(const uint8_t *list, size_t length, uint64_t buckets) {
    static const char LINE[] = "         7     0   0     0\n";
    static uint8_t held[sizeof LIST - 1 + PANSDAOH_LINE];
    static uint8_t cycle[sizeof image];
    const uint8_t *line = (const uint8_t *)LINE;
    struct pansdaoh_change_answer full, come, gone, again;
    memcpy(held, list, length);
    full = pansdaoh_arrive(held, length, 5, line, PANSDAOH_LINE, 2, 1, 1, 1, cycle, sizeof cycle);
    come = pansdaoh_arrive(held, sizeof held, 5, line, PANSDAOH_LINE, 2, 1, 1, 1, cycle,
                           sizeof cycle);
    if (come.number != 0 || come.lines != 6 || come.d != 6 || come.k != 3 || come.n <= buckets ||
        memcmp(held + 3 * PANSDAOH_LINE, line, PANSDAOH_LINE))
        return 1;
    gone = pansdaoh_take_out(held, sizeof held, 6, line, PANSDAOH_LINE, 2, 1, 1, 1, cycle,
                             sizeof cycle);
    again = pansdaoh_take_out(held, sizeof held, 5, line, PANSDAOH_LINE, 2, 1, 1, 1, cycle,
                              sizeof cycle);
    return gone.number != 0 || gone.lines != 5 || gone.n != buckets ||
           full.number != PANSDAOH_REFUSED_NO_PLACE ||
           again.number != PANSDAOH_REFUSED_NOT_IN_LIST || memcmp(held, list, length) ||
           memcmp(cycle, image, PANSDAOH_BUCKET * buckets);
}

/* The lookups of all tags of list S; 0 if the mean wait is theirs. */
static int average(const uint8_t *list, size_t length, uint64_t buckets) {
    static const uint64_t TAGS[] = {3, 5, 8, 9};
    size_t tags = sizeof TAGS / sizeof *TAGS, i;
    struct pansdaoh_mean_answer mean = pansdaoh_mean(list, length, 2, 1, 1, 1);
    struct pansdaoh_mean_answer none = pansdaoh_mean(list, 0, 2, 1, 1, 0);
    uint64_t tune_in, sum = 0;
    for (i = 0; i < tags; i++)
        for (tune_in = 0; tune_in < buckets; tune_in++)
            sum += pansdaoh_lookup(image, PANSDAOH_BUCKET * buckets, TAGS[i], tune_in, lines,
                                   sizeof lines)
                       .elapsed;
    return mean.number != 0 || mean.sum != sum || mean.divisor != buckets * tags ||
           mean.quotient != sum / mean.divisor || mean.remainder != sum % mean.divisor ||
           none.number != PANSDAOH_REFUSED_NO_LINE || none.divisor != 0;
}

int main(void) {
    const uint8_t *list = (const uint8_t *)LIST;
    size_t length = sizeof LIST - 1;
    struct pansdaoh_size_answer size = pansdaoh_size(5, 2, 1, 1, 1, 2);
    struct pansdaoh_answer built =
        pansdaoh_build(list, length, 2, 1, 1, 1, image, sizeof image);
    size_t image_length = PANSDAOH_BUCKET * built.count;
    struct pansdaoh_answer read =
        pansdaoh_read_back(image, image_length, 2, 1, 1, 1, lines, sizeof lines);
    uint64_t tune_in, others;
    if (built.number != 0 || read.number != 0 || read.count != 5 || memcmp(lines, list, length))
        return 1;
    if (size.number != 0 || size.n != built.count || size.bytes != image_length)
        return 1;
    if (come_and_go(list, length, built.count) || average(list, length, built.count))
        return 1;
    for (tune_in = 0; tune_in < built.count; tune_in++) {
        struct pansdaoh_found found =
            pansdaoh_lookup(image, image_length, 5, tune_in, lines, sizeof lines);
        if (found.number != 0 || compare(built.count, 5, tune_in, found))
            return 1;
        if (found.heard > size.heard)
            return 1;
        for (others = 0; others < found.heard; others++)
            if (lose_one(built.count, 5, tune_in, others, found))
                return 1;
        printf("%6u%6u%6u%6u\n", (unsigned)tune_in, (unsigned)found.heard,
               (unsigned)found.elapsed, (unsigned)found.lines);
    }
    return 0;
}
