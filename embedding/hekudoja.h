/*
 * Hekudoja for tools in C: exact smoothing of ground profiles.
 *
 * A tool calls the functions that begin with hek_. They trust none of their arguments and hand good ones on to the
 * proved functions, which begin with hekudoja_.
 *
 * Text is bytes with their number, and needs no byte 0 at its end. A sheet is text as the reference of the library
 * describes it, of at most HEKUDOJA_INPUT bytes. NULL with the length 0 is an empty text or list.
 *
 * Every call answers a hekudoja_reply:
 *
 *   count    what was written, read or found; each call says what it counts. 0 where the call was refused
 *   refusal  0 where the call went well, else the number of the refusal
 *   sheet    the sheet that is at fault: 1 the first of the call, 2 the second, 0 none
 *   line     the line of that sheet, counted from 1; 0 where no line is at fault
 *
 * A call that refuses writes nothing. One that goes well writes the front of its buffer and leaves the further places
 * as they were. No call allocates, keeps a pointer or touches a global, so that any thread may call at any time; it
 * should have 256 KB of stack left, of which the longest call, hek_answer, takes about 119.
 *
 * Refusals, which each call looks for in the order in which it lists them:
 *
 *    4  there is no such level                      20  the sheet's line of names is another one
 *    7  no height, or more than 2,048               21  a line is malformed
 *    8  a height is out of range                    22  a line's pass or station is refused
 *    9  there are no more heights than the reach    23  the buffer is too short
 *   10  the work buffer is too short                24  more than 32,768 bytes
 *   30  HEKUDOJA_BAD_ARGUMENT, the header's own number: a NULL pointer with a length above 0, a pointer to numbers that
 *       is not aligned, or a buffer to write that overlaps another argument
 *
 * The hek_ functions look for 30, for texts that are too long (24) and for more than 2,048 heights (7) before the call.
 *
 * Link libembedding.a, which needs nothing but memcpy, memmove and memset of the C library.
 */
#ifndef HEKUDOJA_H
#define HEKUDOJA_H

#include <stddef.h>
#include <stdint.h>

#if SIZE_MAX != UINT64_MAX
#error "the library is built for 64-bit machines"
#endif

#ifdef __cplusplus
extern "C" {
#endif

/* The most bytes of a sheet, or of an input. */
#define HEKUDOJA_INPUT ((size_t)32768)
/* The most bytes that any call writes, which hek_answer asks for. */
#define HEKUDOJA_OUTPUT ((size_t)1178200)
/* The most heights of a profile. */
#define HEKUDOJA_HEIGHTS ((size_t)2048)
/* The most levels of a schedule, the ground among them. */
#define HEKUDOJA_LEVELS ((size_t)25)

#define HEKUDOJA_PROFILE_LENGTH 7
#define HEKUDOJA_TOO_LONG 24
#define HEKUDOJA_BAD_ARGUMENT 30

typedef struct {
    uint64_t count;
    uint64_t refusal;
    uint64_t sheet;
    uint64_t line;
} hekudoja_reply;

/* ---- The proved functions. A slice is a pointer, never NULL, and then a length. ---- */

hekudoja_reply hekudoja_answer(const char *input, size_t input_length, char *out, size_t out_length);
hekudoja_reply hekudoja_check_schedule(const char *sheet, size_t sheet_length);
hekudoja_reply hekudoja_compare(const char *first, size_t first_length, const char *second, size_t second_length);
hekudoja_reply hekudoja_reduce_schedule(const char *sheet, size_t sheet_length, char *out, size_t out_length);
hekudoja_reply hekudoja_read_profile(const char *sheet, size_t sheet_length, int64_t *heights, size_t heights_length);
hekudoja_reply hekudoja_list_level(const char *schedule, size_t schedule_length, size_t level, const char *profile,
                                   size_t profile_length, char *out, size_t out_length);
hekudoja_reply hekudoja_draw(const char *schedule, size_t schedule_length, size_t level, const int64_t *heights,
                             size_t heights_length, int64_t *work, size_t work_length, uint64_t *scale);
hekudoja_reply hekudoja_count_turns(const char *schedule, size_t schedule_length, const int64_t *heights,
                                    size_t heights_length, uint64_t *counts, size_t counts_length);

/* ---- What the hek_ functions are made of. ---- */

static inline hekudoja_reply hek_refused(uint64_t refusal, uint64_t sheet)
{
    hekudoja_reply reply = {0, refusal, sheet, 0};
    return reply;
}

static inline size_t hek_least(size_t a, size_t b)
{
    return a < b ? a : b;
}

/* Whether `length` items of `size` bytes cannot stand at this address. */
static inline int hek_misplaced(const void *at, size_t length, size_t size)
{
    return length > 0 && (at == NULL || (uintptr_t)at % size != 0);
}

/* Whether two stretches of bytes share one. */
static inline int hek_overlap(const void *a, size_t a_bytes, const void *b, size_t b_bytes)
{
    uintptr_t x = (uintptr_t)a;
    uintptr_t y = (uintptr_t)b;
    if (a_bytes == 0 || b_bytes == 0)
        return 0;
    return x < y ? y - x < a_bytes : x - y < b_bytes;
}

/* Why a text is not handed on, or 0. */
static inline uint64_t hek_bad_text(const char *text, size_t length)
{
    if (hek_misplaced(text, length, 1))
        return HEKUDOJA_BAD_ARGUMENT;
    return length > HEKUDOJA_INPUT ? HEKUDOJA_TOO_LONG : 0;
}

/* Why heights are not handed on, or 0. */
static inline uint64_t hek_bad_heights(const int64_t *heights, size_t length)
{
    if (hek_misplaced(heights, length, sizeof *heights))
        return HEKUDOJA_BAD_ARGUMENT;
    return length > HEKUDOJA_HEIGHTS ? HEKUDOJA_PROFILE_LENGTH : 0;
}

/* An empty slice has an address too. */
static inline const void *hek_from(const void *at, size_t length)
{
    static const uint64_t nothing = 0;
    return length == 0 ? &nothing : at;
}

static inline void *hek_into(void *at, size_t length)
{
    static uint64_t nothing = 0;
    return length == 0 ? &nothing : at;
}

/* ---- The calls. ---- */

/*
 * Writes what the command prints for this input, a schedule sheet, an empty line and a profile sheet: the listings of
 * all levels, or one line that tells why not. Counts the bytes. Refuses with 24, and with 23 where `out` has fewer than
 * HEKUDOJA_OUTPUT places.
 */
static inline hekudoja_reply hek_answer(const char *input, size_t input_length, char *out, size_t out_length)
{
    const uint64_t bad = hek_bad_text(input, input_length);
    out_length = hek_least(out_length, HEKUDOJA_OUTPUT);
    if (bad != 0)
        return hek_refused(bad, 0);
    if (hek_misplaced(out, out_length, 1) || hek_overlap(input, input_length, out, out_length))
        return hek_refused(HEKUDOJA_BAD_ARGUMENT, 0);
    return hekudoja_answer((const char *)hek_from(input, input_length), input_length,
                           (char *)hek_into(out, out_length), out_length);
}

/* Reads a schedule sheet and counts its passes. Refuses with 24, 20, 21 and 22. */
static inline hekudoja_reply hek_check_schedule(const char *sheet, size_t sheet_length)
{
    const uint64_t bad = hek_bad_text(sheet, sheet_length);
    if (bad != 0)
        return hek_refused(bad, 1);
    return hekudoja_check_schedule((const char *)hek_from(sheet, sheet_length), sheet_length);
}

/*
 * Compares the schedules of two sheets. The count is 1 where they are equal, which is where no lawful profile that is
 * longer than both reaches tells them apart, and 0 where they are not. Refuses with 24, 20, 21 and 22, the first sheet
 * first.
 */
static inline hekudoja_reply hek_compare(const char *first, size_t first_length, const char *second,
                                         size_t second_length)
{
    const uint64_t bad = hek_bad_text(first, first_length);
    const uint64_t bad_second = hek_bad_text(second, second_length);
    if (bad != 0)
        return hek_refused(bad, 1);
    if (bad_second != 0)
        return hek_refused(bad_second, 2);
    return hekudoja_compare((const char *)hek_from(first, first_length), first_length,
                            (const char *)hek_from(second, second_length), second_length);
}

/*
 * Writes the sheet of the same schedule, with reduced weights, and counts its bytes. Refuses with 24, 20, 21 and 22,
 * then with 23.
 */
static inline hekudoja_reply hek_reduce_schedule(const char *sheet, size_t sheet_length, char *out, size_t out_length)
{
    const uint64_t bad = hek_bad_text(sheet, sheet_length);
    out_length = hek_least(out_length, HEKUDOJA_OUTPUT);
    if (bad != 0)
        return hek_refused(bad, 1);
    if (hek_misplaced(out, out_length, 1) || hek_overlap(sheet, sheet_length, out, out_length))
        return hek_refused(HEKUDOJA_BAD_ARGUMENT, 0);
    return hekudoja_reduce_schedule((const char *)hek_from(sheet, sheet_length), sheet_length,
                                    (char *)hek_into(out, out_length), out_length);
}

/* Reads a profile sheet and counts its heights. Refuses with 24, 20, 21 and 22, then with 23. */
static inline hekudoja_reply hek_read_profile(const char *sheet, size_t sheet_length, int64_t *heights,
                                              size_t heights_length)
{
    const uint64_t bad = hek_bad_text(sheet, sheet_length);
    heights_length = hek_least(heights_length, HEKUDOJA_HEIGHTS);
    if (bad != 0)
        return hek_refused(bad, 1);
    if (hek_misplaced(heights, heights_length, sizeof *heights)
        || hek_overlap(sheet, sheet_length, heights, heights_length * sizeof *heights))
        return hek_refused(HEKUDOJA_BAD_ARGUMENT, 0);
    return hekudoja_read_profile((const char *)hek_from(sheet, sheet_length), sheet_length,
                                 (int64_t *)hek_into(heights, heights_length), heights_length);
}

/*
 * Writes the listing of one level, of the schedule of the first sheet and the profile of the second, and counts its
 * bytes. Refuses with 24, 20, 21 and 22, the schedule first, then with 4, 7, 9 and 23.
 */
static inline hekudoja_reply hek_list_level(const char *schedule, size_t schedule_length, size_t level,
                                            const char *profile, size_t profile_length, char *out, size_t out_length)
{
    const uint64_t bad = hek_bad_text(schedule, schedule_length);
    const uint64_t bad_second = hek_bad_text(profile, profile_length);
    out_length = hek_least(out_length, HEKUDOJA_OUTPUT);
    if (bad != 0)
        return hek_refused(bad, 1);
    if (bad_second != 0)
        return hek_refused(bad_second, 2);
    if (hek_misplaced(out, out_length, 1) || hek_overlap(schedule, schedule_length, out, out_length)
        || hek_overlap(profile, profile_length, out, out_length))
        return hek_refused(HEKUDOJA_BAD_ARGUMENT, 0);
    return hekudoja_list_level((const char *)hek_from(schedule, schedule_length), schedule_length, level,
                               (const char *)hek_from(profile, profile_length), profile_length,
                               (char *)hek_into(out, out_length), out_length);
}

/*
 * Draws one level of the schedule of a sheet from heights. `work` then holds the level's numerators, and 0 behind them
 * up to the number of heights; `*scale` is what the numerators are to be divided by. Counts the numerators. Refuses with
 * 24, 20, 21 and 22, then with 4, 7, 8, 9 and 10.
 */
static inline hekudoja_reply hek_draw(const char *schedule, size_t schedule_length, size_t level,
                                      const int64_t *heights, size_t heights_length, int64_t *work,
                                      size_t work_length, uint64_t *scale)
{
    const uint64_t bad = hek_bad_text(schedule, schedule_length);
    const uint64_t bad_heights = hek_bad_heights(heights, heights_length);
    const size_t room = hek_least(work_length, HEKUDOJA_HEIGHTS);
    if (bad != 0)
        return hek_refused(bad, 1);
    if (bad_heights != 0)
        return hek_refused(bad_heights, 0);
    if (hek_misplaced(work, room, sizeof *work) || hek_misplaced(scale, 1, sizeof *scale)
        || hek_overlap(schedule, schedule_length, work, room * sizeof *work)
        || hek_overlap(schedule, schedule_length, scale, sizeof *scale)
        || hek_overlap(heights, heights_length * sizeof *heights, work, room * sizeof *work)
        || hek_overlap(heights, heights_length * sizeof *heights, scale, sizeof *scale)
        || hek_overlap(work, room * sizeof *work, scale, sizeof *scale))
        return hek_refused(HEKUDOJA_BAD_ARGUMENT, 0);
    return hekudoja_draw((const char *)hek_from(schedule, schedule_length), schedule_length, level,
                         (const int64_t *)hek_from(heights, heights_length), heights_length,
                         (int64_t *)hek_into(work, room), room, scale);
}

/*
 * Counts the turns of every level of the schedule of a sheet, the ground first: `counts` then begins with one number for
 * each level, none of them larger than the one before it. Counts the levels. Refuses with 24, 20, 21 and 22, then with 7,
 * 8, 9 and 23.
 */
static inline hekudoja_reply hek_count_turns(const char *schedule, size_t schedule_length, const int64_t *heights,
                                             size_t heights_length, uint64_t *counts, size_t counts_length)
{
    const uint64_t bad = hek_bad_text(schedule, schedule_length);
    const uint64_t bad_heights = hek_bad_heights(heights, heights_length);
    const size_t room = hek_least(counts_length, HEKUDOJA_LEVELS);
    if (bad != 0)
        return hek_refused(bad, 1);
    if (bad_heights != 0)
        return hek_refused(bad_heights, 0);
    if (hek_misplaced(counts, room, sizeof *counts)
        || hek_overlap(schedule, schedule_length, counts, room * sizeof *counts)
        || hek_overlap(heights, heights_length * sizeof *heights, counts, room * sizeof *counts))
        return hek_refused(HEKUDOJA_BAD_ARGUMENT, 0);
    return hekudoja_count_turns((const char *)hek_from(schedule, schedule_length), schedule_length,
                                (const int64_t *)hek_from(heights, heights_length), heights_length,
                                (uint64_t *)hek_into(counts, room), room);
}

#ifdef __cplusplus
}
#endif

#endif
