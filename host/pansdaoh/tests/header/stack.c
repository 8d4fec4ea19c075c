/*
 * Prints for each call the stack that it took, at most, over the deepest trees
 * and others, and the most that the header allows: for lost, what step took. Each
 * call runs on a stack of its own that was filled with one byte before; what is
 * changed was taken.
 */
#include "pansdaoh.h"

#include <stdio.h>
#include <string.h>
#include <ucontext.h>

#define UNTOUCHED 0xa5

static unsigned char stack[1 << 17];
static uint8_t list[PANSDAOH_MAX_LINES * PANSDAOH_LINE + 1];
static uint8_t image[PANSDAOH_MAX_BUCKETS * PANSDAOH_BUCKET];
static uint8_t out[sizeof list];
static uint8_t given[PANSDAOH_LINE];

/* What the calls are given, and what they answered. */
static uint64_t n, p, layout, copies, lines, tag, place;
static struct pansdaoh_answer built, read_back;
static struct pansdaoh_size_answer size;
static struct pansdaoh_change_answer changed;
static struct pansdaoh_mean_answer mean;
static struct pansdaoh_found found;
static struct pansdaoh_listener listener;
static struct pansdaoh_step_answer step;
static struct pansdaoh_line_answer line;

static void call_build(void) {
    built = pansdaoh_build(list, lines * PANSDAOH_LINE, n, p, layout, copies, image, sizeof image);
}

static void call_size(void) {
    size = pansdaoh_size(lines, n, p, layout, copies, lines);
}

static void call_arrive(void) {
    changed = pansdaoh_arrive(list, lines * PANSDAOH_LINE, lines - 1, given, sizeof given, n, p,
                              layout, copies, image, sizeof image);
}

static void call_take_out(void) {
    changed = pansdaoh_take_out(list, lines * PANSDAOH_LINE, lines, given, sizeof given, n, p,
                                layout, copies, image, sizeof image);
}

static void call_mean(void) {
    mean = pansdaoh_mean(list, lines * PANSDAOH_LINE, n, p, layout, copies);
}

static void call_read_back(void) {
    read_back = pansdaoh_read_back(image, built.count * PANSDAOH_BUCKET, n, p, layout, copies, out,
                                   sizeof out);
}

static void call_lookup(void) {
    found = pansdaoh_lookup(image, built.count * PANSDAOH_BUCKET, tag, place, out, sizeof out);
}

static void call_step(void) {
    step = pansdaoh_step(listener.state, image + place * PANSDAOH_BUCKET, PANSDAOH_BUCKET);
}

static void call_lost(void) {
    step = pansdaoh_lost(listener.state);
}

static void call_line(void) {
    line = pansdaoh_line(image + place * PANSDAOH_BUCKET, PANSDAOH_BUCKET, step.first);
}

/* Raises the most to what this call takes. */
static void measure(void (*call)(void), size_t *most) {
    ucontext_t here, there;
    size_t untouched = 0;
    memset(stack, UNTOUCHED, sizeof stack);
    getcontext(&there);
    there.uc_stack.ss_sp = stack;
    there.uc_stack.ss_size = sizeof stack;
    there.uc_link = &here;
    makecontext(&there, call, 0);
    swapcontext(&here, &there);
    while (untouched < sizeof stack && stack[untouched] == UNTOUCHED)
        untouched++;
    if (sizeof stack - untouched > *most)
        *most = sizeof stack - untouched;
}

static size_t build_stack, size_stack, arrive_stack, take_out_stack, mean_stack;
static size_t read_back_stack, lookup_stack, step_stack, lost_stack, line_stack;

/* A hearing to its end; 0 if it ends as the lookup does. */
static int hear(uint64_t first_place) {
    place = first_place;
    measure(call_lookup, &lookup_stack);
    pansdaoh_start(listener.state, tag);
    measure(call_lost, &lost_stack);
    if (step.answer != PANSDAOH_STEP_DOZE || pansdaoh_heard(listener.state) != 1)
        return 1;
    pansdaoh_start(listener.state, tag);
    do {
        measure(call_step, &step_stack);
        measure(call_line, &line_stack);
        if (line.number != 0 || (step.count > 0 && line.tag != tag))
            return 1;
        place = (place + step.value) % built.count;
    } while (step.answer == PANSDAOH_STEP_DOZE);
    if (found.number != 0 || step.answer == PANSDAOH_STEP_REFUSED ||
        pansdaoh_heard(listener.state) != found.heard)
        return 1;
    measure(call_lost, &lost_stack);
    return step.value != PANSDAOH_REFUSED_ENDED;
}

/* The first line is taken out and arrives again; 0 if the cycle is as it was. */
static int come_and_go(void) {
    memcpy(given, list, sizeof given);
    measure(call_take_out, &take_out_stack);
    if (changed.number != 0 || changed.lines != lines - 1)
        return 1;
    measure(call_arrive, &arrive_stack);
    return changed.number != 0 || changed.lines != lines || changed.n != built.count;
}

/*
 * Builds, sizes, changes, averages, reads back, looks up and steps; 0 if nothing was refused, but
 * the mean of no lines.
 */
static int run(const uint64_t settings[5]) {
    uint64_t i;
    n = settings[0];
    p = settings[1];
    layout = settings[2];
    copies = settings[3];
    lines = settings[4];
    for (i = 0; i < lines; i++)
        sprintf((char *)list + i * PANSDAOH_LINE, "%10lu%6d%4d%6d\n",
                (unsigned long)(4294900000 + i / 3), 99999, 9999, 999999);
    measure(call_build, &build_stack);
    measure(call_size, &size_stack);
    if (lines > 0 && come_and_go())
        return 1;
    measure(call_mean, &mean_stack);
    if (mean.number != (lines > 0 ? 0 : PANSDAOH_REFUSED_NO_LINE) ||
        mean.divisor != built.count * ((lines + 2) / 3))
        return 1;
    measure(call_read_back, &read_back_stack);
    if (built.number != 0 || size.number != 0 || size.n != built.count || read_back.number != 0)
        return 1;
    for (i = 0; i < 20; i++) {
        tag = 4294900000 + i * lines / 60;
        if (hear(i * (built.count - 1) / 19))
            return 1;
    }
    return 0;
}

int main(void) {
    static const uint64_t SETTINGS[][5] = {
        {2, 1, 1, 0, 40000}, {2, 1, 1, 1, 40000}, {2, 1, 1, 2, 40000}, {2, 1, 1, 3, 40000},
        {2, 1, 1, 4, 40000}, {2, 1, 2, 1, 40000}, {2, 1, 2, 2, 20000}, {2, 8, 1, 4, 40000},
        {3, 1, 1, 4, 40000}, {8, 1, 1, 4, 40000}, {8, 8, 1, 1, 40000}, {8, 8, 2, 100, 40000},
        {8, 8, 1, 0, 5},     {2, 1, 1, 0, 0},
    };
    size_t i;
    for (i = 0; i < sizeof SETTINGS / sizeof *SETTINGS; i++)
        if (run(SETTINGS[i]))
            return 1;
    printf("build %zu %d\n", build_stack, PANSDAOH_BUILD_STACK);
    printf("size %zu %d\n", size_stack, PANSDAOH_SIZE_STACK);
    printf("arrive %zu %d\n", arrive_stack, PANSDAOH_ARRIVE_STACK);
    printf("take_out %zu %d\n", take_out_stack, PANSDAOH_TAKE_OUT_STACK);
    printf("mean %zu %d\n", mean_stack, PANSDAOH_MEAN_STACK);
    printf("read_back %zu %d\n", read_back_stack, PANSDAOH_READ_BACK_STACK);
    printf("lookup %zu %d\n", lookup_stack, PANSDAOH_LOOKUP_STACK);
    printf("step %zu %d\n", step_stack, PANSDAOH_STEP_STACK);
    printf("lost %zu %zu\n", lost_stack, step_stack);
    printf("line %zu %d\n", line_stack, PANSDAOH_LINE_STACK);
    return 0;
}
