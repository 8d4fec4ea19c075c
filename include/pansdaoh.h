/*
 * Tare lists on air: the calls of libpansdaoh.a.
 *
 * A list is lines of 27 bytes, a cycle or image is buckets of 240 bytes, as
 * docs/ON-AIR.md tells. All numbers are unsigned; places count from 0.
 *
 * Buffers. Each buffer is a pointer and its length in bytes. A pointer is never
 * NULL: a buffer of length 0 has some other address, which is not followed (the
 * data() of an empty std::vector may be NULL). An input is only read. What a
 * call writes, an output buffer, a list that it changes or a state, overlaps
 * nothing else that the call is given. Output is written once the call is known
 * to succeed, from the buffer's first byte on; bytes past the output keep their
 * former content, and after a refusal all bytes do, those of a list to be changed
 * too. No call keeps a pointer, allocates memory or uses a variable of its own,
 * so calls on different buffers may run at the same time.
 *
 * Any content of a list, line, setting, image, bucket, tag or state is answered,
 * and any number of lines or data buckets.
 *
 * What a program needs. The library is machine code for x86-64 as every such
 * processor runs it, with the calling convention of Linux (System V), in one
 * ELF object. Of other libraries it needs memcpy at most. Code and constants
 * take less than 48 KiB; linked with --gc-sections a program has only what it
 * calls: one that only listens (start, step, lost, heard, elapsed, line) less than
 * 12 KiB. Each call's need of stack is given with it, at most, without what memcpy
 * takes. There is no other memory behind the calls.
 *
 * On another processor the library cannot be linked: the toolchain compiles for
 * x86-64 only. A display with such a processor has a listener of its own, written
 * by docs/ON-AIR.md and tried against this one; nothing is proved of it.
 */
#ifndef PANSDAOH_H
#define PANSDAOH_H

#include <stddef.h>
#include <stdint.h>

#ifdef __cplusplus
extern "C" {
#endif

/*
 * The version of what this file declares. A change that programs must follow
 * raises the first number, or, while that is 0, the second. Cycles built before
 * 0.2 are to be built anew: distances in them may lead past the next cycle's
 * start, and such buckets are refused (8). From 0.3 on a list's numbers may have
 * leading zeros, and a list read back need not be the bytes that were built. 0.3.1
 * added the calls that change a list in its buffer, and the refusals 15 and 16. 0.3.2
 * added pansdaoh_lost; a listener's counts stop at 4,294,967,295. 0.3.3 added
 * pansdaoh_mean, and the refusal 17.
 */
#define PANSDAOH_VERSION_MAJOR 0
#define PANSDAOH_VERSION_MINOR 3
#define PANSDAOH_VERSION_PATCH 3

#define PANSDAOH_LINE 27           /* bytes of a list line, its newline included */
#define PANSDAOH_BUCKET 240        /* bytes of a bucket */
#define PANSDAOH_MAX_LINES 40000   /* the most lines of a list */
#define PANSDAOH_MAX_BUCKETS 99999 /* the most buckets of a cycle */

/*
 * The numbers of refusals. The place is 0 unless one is named; in a lookup's 8
 * to 10 it is the image position of the bucket just heard.
 */
enum pansdaoh_refusal {
    /* n, p or layout outside its range */
    PANSDAOH_REFUSED_SETTINGS = 1,
    /* list length no multiple of 27, or over 40,000 lines; of a change also as told there */
    PANSDAOH_REFUSED_LIST_LENGTH = 2,
    /* line misprinted; place: first such line; leading zeros are no misprint */
    PANSDAOH_REFUSED_LINE = 3,
    /* tag falls; place: first such line */
    PANSDAOH_REFUSED_TAG_FALLS = 4,
    /* copies outside its range */
    PANSDAOH_REFUSED_COPIES = 5,
    /* over 99,999 buckets */
    PANSDAOH_REFUSED_CYCLE_LENGTH = 6,
    /* output buffer too short */
    PANSDAOH_REFUSED_ROOM = 7,
    /* bucket not 240 bytes, or misprinted */
    PANSDAOH_REFUSED_BUCKET = 8,
    /* letter, position or N not as awaited */
    PANSDAOH_REFUSED_NOT_AWAITED = 9,
    /* the next bucket lies past the cycle after tune-in's */
    PANSDAOH_REFUSED_PAST_NEXT_CYCLE = 10,
    /* image empty, no multiple of 240, or over 99,999 buckets */
    PANSDAOH_REFUSED_IMAGE_LENGTH = 11,
    /* tune-in at or past the image's bucket count */
    PANSDAOH_REFUSED_TUNE_IN = 12,
    /* no list builds this image under these settings */
    PANSDAOH_REFUSED_NO_LIST = 13,
    /* bucket given to an ended listener */
    PANSDAOH_REFUSED_ENDED = 14,
    /* the line to take out is not in the list */
    PANSDAOH_REFUSED_NOT_IN_LIST = 15,
    /* the list has 40,000 lines or its buffer no place for one more */
    PANSDAOH_REFUSED_NO_PLACE = 16,
    /* the list has no line */
    PANSDAOH_REFUSED_NO_LINE = 17
};

/* What building and reading back return. */
struct pansdaoh_answer {
    uint64_t number; /* 0, or the number of the refusal */
    uint64_t place;  /* of the refusal, else 0 */
    uint64_t count;  /* buckets built or lines read; 0 if refused */
};

/*
 * Builds the cycle of a list into out and returns N, its number of buckets, as
 * the count: 240 x N bytes are written. Room for any cycle is
 * 240 x 99,999 bytes.
 *
 * A number of a list line has blanks or leading zeros before it, or both, the
 * blanks first. The cycle has blanks in their place, so lists that differ in
 * leading zeros alone have the same cycle.
 *
 *   n       entries for an index bucket, 2 to 8
 *   p       lines for a data bucket, 1 to 8
 *   layout  1 distributed, 2 (1,m)
 *   copies  layout 1: r, 0 to the lesser of 4 and k - 1, k the index levels;
 *           layout 2: m, 1 to the number of data buckets, at least to 1
 *
 * Refused by 1 to 7, in this order, each over the whole list.
 */
struct pansdaoh_answer pansdaoh_build(const uint8_t *list, size_t list_length, uint64_t n,
                                      uint64_t p, uint64_t layout, uint64_t copies,
                                      uint8_t *out, size_t out_length);

#define PANSDAOH_BUILD_STACK 12288 /* bytes of stack, at most */

/* What sizing returns. If refused, all behind the place is 0. */
struct pansdaoh_size_answer {
    uint64_t number; /* 0, or the number of the refusal */
    uint64_t place;  /* always 0 */
    uint64_t k;      /* index levels, at least 1 */
    uint64_t d;      /* D, the data buckets */
    uint64_t n;      /* N, the buckets of the cycle */
    uint64_t bytes;  /* of the image: 240 x N */
    uint64_t heard;  /* buckets that a display hears, at most */
};

/*
 * The figures of a cycle before there is a list: those of every list of so many
 * lines that is printed as it should be and whose tags never fall. Building makes
 * N buckets of it, in room for the image's bytes. Nothing is built here, and
 * nothing is read or written.
 *
 *   lines   0 to 40,000
 *   n, p, layout, copies
 *           the settings, as for building
 *   c       C, how many data buckets hold lines of the tag; above D, it is taken
 *           as D
 *
 * A display whose hearing ends in this cycle hears at most 2 + k + C buckets,
 * whatever its tune-in; with C 0, that of a tag which is not listed, 2 + k + 1.
 *
 * Refused by 1, 2, 5, 6, in this order; here 2 is over 40,000 lines alone.
 */
struct pansdaoh_size_answer pansdaoh_size(uint64_t lines, uint64_t n, uint64_t p, uint64_t layout,
                                          uint64_t copies, uint64_t c);

#define PANSDAOH_SIZE_STACK 768 /* bytes of stack, at most */

/* What a change of a list returns. If refused, all behind the place is 0. */
struct pansdaoh_change_answer {
    uint64_t number; /* 0, or the number of the refusal */
    uint64_t place;  /* of the refusal, else 0 */
    uint64_t lines;  /* lines of the changed list */
    uint64_t d;      /* D, its data buckets */
    uint64_t k;      /* its index levels, at least 1 */
    uint64_t n;      /* N, the buckets of its cycle */
};

/*
 * A line arrives in a list. It goes, with its bytes as given, behind all lines of
 * its tag: in front of the first line with a greater tag, or to the list's end if
 * there is none. The lines behind it move one place on. The changed list's cycle
 * is built into out: the 240 x N bytes that pansdaoh_build makes of the changed
 * list with these settings.
 *
 *   list    a buffer with the list at its front. Behind the list it may hold any
 *           bytes. The first 27 of them are the place for one more line and are
 *           written; the others stay
 *   lines   the list's number of lines, 0 to 40,000
 *   line    the new line, 27 bytes with its newline
 *   n, p, layout, copies
 *           the settings, as for building
 *
 * Refused by 1, 2, 3, 4, 16, 5, 6, 7, in this order, before a byte of list or out
 * is written. 2 is here: over 40,000 lines, more lines than the buffer holds, or a
 * given line not 27 bytes long. 3 is of the list's lines, then of the given line,
 * whose place is the list's number of lines. 4 is of the list. 5, 6 and 7 are of
 * the changed list.
 */
struct pansdaoh_change_answer pansdaoh_arrive(uint8_t *list, size_t list_length, uint64_t lines,
                                              const uint8_t *line, size_t line_length,
                                              uint64_t n, uint64_t p, uint64_t layout,
                                              uint64_t copies, uint8_t *out, size_t out_length);

#define PANSDAOH_ARRIVE_STACK 12288 /* bytes of stack, at most */

/*
 * A line is taken out of a list: the first whose four numbers equal those of the
 * line given, which may have them in other bytes, as with leading zeros. The lines
 * behind it move one place back, and the 27 bytes where the last line was become
 * blank (byte 32): this place serves the next arrival. The buffer's other bytes
 * behind the list stay. The changed list's cycle is built into out, as for an
 * arrival, and the parameters are the same.
 *
 * Refused by 1, 2, 3, 4, 15, 5, 6, 7, in this order, as an arrival is.
 */
struct pansdaoh_change_answer pansdaoh_take_out(uint8_t *list, size_t list_length, uint64_t lines,
                                                const uint8_t *line, size_t line_length,
                                                uint64_t n, uint64_t p, uint64_t layout,
                                                uint64_t copies, uint8_t *out,
                                                size_t out_length);

#define PANSDAOH_TAKE_OUT_STACK 12288 /* bytes of stack, at most */

/* What averaging returns. If refused, all behind the place is 0. */
struct pansdaoh_mean_answer {
    uint64_t number;    /* 0, or the number of the refusal */
    uint64_t place;     /* of the refusal, else 0 */
    uint64_t sum;       /* elapsed of all hearings, added */
    uint64_t divisor;   /* how many hearings: N x T, at least 1 */
    uint64_t quotient;  /* the sum divided by the divisor, rounded down */
    uint64_t remainder; /* what is left of the sum, below the divisor */
};

/*
 * The mean wait of a list's tags, by which yards and settings are compared: the
 * mean of elapsed over the hearings of its T different tags, each of them from each
 * of the N buckets of its cycle as tune-in. The list stays as it is throughout, and
 * no bucket is lost: these are the hearings that pansdaoh_lookup runs over its image.
 *
 * The mean is quotient + remainder / divisor buckets, exactly. The sum is
 * quotient x divisor + remainder, and at most 2N x N x T. Nothing is built here, and
 * no hearing is run: the work is linear in the list's length.
 *
 *   list    as for building, leading zeros or not
 *   n, p, layout, copies
 *           the settings, as for building
 *
 * Refused by 1 to 6 as building is, in this order, then by 17.
 */
struct pansdaoh_mean_answer pansdaoh_mean(const uint8_t *list, size_t list_length, uint64_t n,
                                          uint64_t p, uint64_t layout, uint64_t copies);

#define PANSDAOH_MEAN_STACK 1536 /* bytes of stack, at most */

/*
 * Writes the list that builds this image under these settings to out and
 * returns its number of lines as the count: 27 bytes for each are written. Room
 * for any list is 27 x 40,000 bytes.
 *
 * Of the lists that build it, this is the one without leading zeros: the list
 * that was built, with its leading zeros made blank. An image that has a leading
 * zero itself is built by none (13).
 *
 * Refused by 1, 11, 13, 7, in this order.
 */
struct pansdaoh_answer pansdaoh_read_back(const uint8_t *image, size_t image_length, uint64_t n,
                                          uint64_t p, uint64_t layout, uint64_t copies,
                                          uint8_t *out, size_t out_length);

#define PANSDAOH_READ_BACK_STACK 16384 /* bytes of stack, at most */

/* How a lookup ends. */
enum pansdaoh_end { PANSDAOH_FOUND = 1, PANSDAOH_ABSENT = 2 };

/* What a lookup returns. If refused, all behind the place is 0. */
struct pansdaoh_found {
    uint64_t number;  /* 0, or the number of the refusal */
    uint64_t place;   /* of the refusal, else 0 */
    uint64_t end;     /* PANSDAOH_FOUND or PANSDAOH_ABSENT */
    uint64_t heard;   /* buckets taken */
    uint64_t elapsed; /* buckets gone by, tune-in and last one counted */
    uint64_t lines;   /* lines written */
};

/*
 * Runs a listener for the tag over an image, repeated by its own count of
 * buckets, from bucket tune_in on. On found the lines of the tag are written to
 * out, 27 bytes each; on absent nothing is. Room for as many bytes as the image
 * has always suffices.
 *
 * Refused by 11, 12, the steps' own 8 to 10, then 7.
 */
struct pansdaoh_found pansdaoh_lookup(const uint8_t *image, size_t image_length, uint64_t tag,
                                      uint64_t tune_in, uint8_t *out, size_t out_length);

#define PANSDAOH_LOOKUP_STACK 3072 /* bytes of stack, at most */

/*
 * A listener is a state of eight numbers that the caller keeps, and may copy.
 * pansdaoh_start makes it; pansdaoh_step and pansdaoh_lost hand it back in place.
 * The calls take the numbers, so that they may lie in any memory; the struct is
 * there for a program to keep them in. What each number means is not promised.
 */
#define PANSDAOH_STATE 8 /* numbers of a state */

struct pansdaoh_listener {
    uint64_t state[PANSDAOH_STATE];
};

/* The answers of a step, and to a lost bucket. */
enum pansdaoh_step_kind {
    PANSDAOH_STEP_DOZE = 1,
    PANSDAOH_STEP_FOUND = 2,
    PANSDAOH_STEP_ABSENT = 3,
    PANSDAOH_STEP_REFUSED = 4
};

/* What a step returns, and a lost bucket. */
struct pansdaoh_step_answer {
    uint64_t answer; /* PANSDAOH_STEP_DOZE, _FOUND, _ABSENT or _REFUSED */
    uint64_t value;  /* doze: the distance; refused: the number; else 0 */
    uint64_t first;  /* the first of the bucket's lines that match, from 0 */
    uint64_t count;  /* how many match; 0 and 0 if none */
};

/* Makes the state of a listener that waits for its tune-in bucket. */
void pansdaoh_start(uint64_t state[PANSDAOH_STATE], uint64_t tag);

/*
 * Gives the listener one bucket, which does not overlap the state. After a doze
 * by d the next bucket to give is the one d places on. pansdaoh_line reads the
 * lines that the answer names.
 *
 * The lines of the tag are those that the steps named since the last lost bucket,
 * if one was lost, once found is answered. Lines taken before absent, a refusal or a
 * lost bucket are void.
 *
 * The list on air may change from cycle to cycle. No distance of a bucket leads
 * past the next cycle's start (8), where position 0 is awaited and N may be new;
 * within a cycle N stays (9). A hearing ends in tune-in's cycle or in the next:
 * a doze to a second start is refused (10). Its lines, or its absence, are those
 * of the list in whose cycle it ends, and so are k and C in the most buckets that
 * it hears, 2 + k + C. The buckets gone by are at most those of tune-in's cycle
 * from tune-in on and all of the next.
 *
 * Refused by 14, 8, 9, 10, in this order. After 8, 9 or 10 the listener is
 * ended and its counts do not include that bucket; 14 changes nothing. A display
 * that still wants the tag then starts anew: pansdaoh_start, and the next bucket
 * on air as its tune-in.
 */
struct pansdaoh_step_answer pansdaoh_step(uint64_t state[PANSDAOH_STATE], const uint8_t *bucket,
                                          size_t bucket_length);

#define PANSDAOH_STEP_STACK 2560 /* bytes of stack, at most; start, lost and counts need less */

/*
 * Gives the listener a bucket that the radio lost, in the place of pansdaoh_step and
 * without bytes. The answer is a doze by 1, which names no lines: the next bucket to
 * give is the one right behind the lost one. Whatever it is, it is the tune-in anew,
 * and lines taken before are void. If it is lost too, it is handed in as lost too.
 *
 * Both counts run on, and a lost bucket counts as heard. With q buckets lost in all,
 * on a list that stays as it is, the hearing still ends with the exact lines or a
 * true absence; it hears at most (q + 1) x (2 + k + C) buckets, and (q + 1) x 2N go
 * by, at most. If the list changes, what is said of a step holds from the last
 * tune-in on.
 *
 * A bucket that was received damaged is no lost one: it is given to pansdaoh_step,
 * which refuses it (8).
 *
 * Refused by 14 alone, which changes nothing.
 */
struct pansdaoh_step_answer pansdaoh_lost(uint64_t state[PANSDAOH_STATE]);

/* The buckets that the listener has taken, lost ones counted. Stops at 4,294,967,295. */
uint64_t pansdaoh_heard(const uint64_t state[PANSDAOH_STATE]);

/*
 * The buckets gone by from the first taken to the last, both counted, be they lost or
 * not. Stops at 4,294,967,295.
 */
uint64_t pansdaoh_elapsed(const uint64_t state[PANSDAOH_STATE]);

/* A line of a bucket. If refused, or if there is none, all behind is 0. */
struct pansdaoh_line_answer {
    uint64_t number;   /* 0, or the number of the refusal */
    uint64_t place;    /* of the refusal, else 0 */
    uint64_t present;  /* 1 if the bucket has such a line, else 0 */
    uint64_t tag;      /* 0 to 4,294,967,295 */
    uint64_t tare;     /* in kg, 0 to 99,999 */
    uint64_t code;     /* material code, 0 to 9,999 */
    uint64_t weighing; /* weighing number, 0 to 999,999 */
};

/*
 * Line i of a data bucket, from 0, as its four numbers: after a step that named
 * lines, those from first up to but without first + count of the bucket it was
 * given. An index bucket, or an i past the bucket's lines, has none.
 *
 * Refused by 8.
 */
struct pansdaoh_line_answer pansdaoh_line(const uint8_t *bucket, size_t bucket_length, uint64_t i);

#define PANSDAOH_LINE_STACK 1024 /* bytes of stack, at most */

#ifdef __cplusplus
}
#endif

#endif
