/* The planner for chip bring-up, for C and C++: check a sheet, run a schedule, compile a sheet into a circuit, judge a row table, plan.
 *
 * Every call is proved to give, for any bytes, the one answer that the specification permits, and to write nothing but what it says.
 * It needs no heap and no other library, keeps nothing between calls, and may be called from several threads at once.
 *
 * What the caller must keep:
 * - no pointer is null, not even of an empty slice: lend any valid pointer with length 0;
 * - the slices of one call do not overlap where one of them is written;
 * - there is stack: the BRINGUP_.._STACK bytes below, which do not depend on the input.
 *
 * All numbers in buffers are little-endian: of two bytes in a sheet and in masks, of four in rows and answers. */
#ifndef BRINGUP_H
#define BRINGUP_H

#include <stddef.h>
#include <stdint.h>

#ifdef __cplusplus
extern "C" {
#endif

/* What a call returns. The sheet is refused by 1 to 4, in this order, before anything else is looked at. */
enum bringup_code {
    BRINGUP_ANSWERED = 0,       /* answered */
    BRINGUP_UNMARKED = 1,       /* under 16 bytes, or the mark is wrong */
    BRINGUP_OUT_OF_BOUNDS = 2,  /* a count is outside its bounds */
    BRINGUP_LENGTH = 3,         /* back or the length disagrees with the counts */
    BRINGUP_BAD_ROW = 4,        /* a row of the sheet is bad; place: its offset in bytes */
    BRINGUP_SHORT_SCHEDULE = 5, /* plan: the schedule buffer has fewer than H bytes */
    BRINGUP_NO_START = 6,       /* check, plan: no state is a start */
    BRINGUP_EFFORT = 7,         /* compile, plan: effort above the limit; the horizon is told */
    BRINGUP_NO_ROOM = 8,        /* compile, plan: more rows than there is room; horizon and effort are told */
    BRINGUP_NO_PLAN = 9,        /* plan: no plan up to the sheet's horizon */
    BRINGUP_BAD_CALL = 10,      /* run, compile, judge: a number or slice that does not fit the sheet */
    BRINGUP_BAD_TABLE = 11      /* judge: a row of the table is bad; place: its number */
};

enum {
    BRINGUP_ROW_BYTES = 16,     /* of a row: kind and three numbers */
    BRINGUP_MOST_ROWS = 65536,  /* rows past these are neither read nor written */
    BRINGUP_MOST_STEPS = 8,     /* the longest horizon */
    BRINGUP_CHECK_BYTES = 8,    /* the whole answer of each call: its numbers, four bytes each */
    BRINGUP_RUN_BYTES = 16,
    BRINGUP_COMPILE_BYTES = 20,
    BRINGUP_JUDGE_BYTES = 8,
    BRINGUP_PLAN_BYTES = 20
};

/* Stack for each call, on whatever it is lent. This is no part of the proof: it is measured, and for compile and plan counted from the sizes of
 * their frames and how deep they can go. Check and run use under 2 KiB of it; a program that is linked dynamically needs some 3 KiB more at
 * its first call. */
enum {
    BRINGUP_CHECK_STACK = 8192,
    BRINGUP_RUN_STACK = 8192,
    BRINGUP_JUDGE_STACK = 73728,
    BRINGUP_COMPILE_STACK = 3145728,
    BRINGUP_PLAN_STACK = 4194304
};

/* Every call returns its code and writes its numbers into the answer slice, as many as fit whole, zeros where nothing is told; place
 * comes first and is 0 but for 4 and 11. */

/* Place, and how many of the 2^F states are starts. */
uint32_t bringup_check(const uint8_t *sheet, size_t sheet_len, uint8_t *answer, size_t answer_len);

/* Place, steps done, the state reached, and whether it is a goal (1 or 0; 0 if a step failed). The schedule has up to 8 entries of a byte:
 * 0 idles, k is write k. The state's bit j is bit j of the sheet's masks. */
uint32_t bringup_run(const uint8_t *sheet, size_t sheet_len, uint32_t state, const uint8_t *schedule, size_t schedule_len,
                     uint8_t *answer, size_t answer_len);

/* Place, horizon, effort, rows and root of the circuit at a horizon up to 8. On 0 the row buffer holds the circuit with zero rows behind
 * it; after 7 and 8 its rows are zero; after any other code it is untouched, as bytes past the last whole row always are. */
uint32_t bringup_compile(const uint8_t *sheet, size_t sheet_len, uint32_t horizon, uint32_t limit, uint8_t *rows, size_t rows_len,
                         uint8_t *answer, size_t answer_len);

/* Place, and the value (1 or 0) of a row of any table, with the facts of moment 0 from the state, the actions from the masks (two bytes a
 * step, bit k is write k + 1) and every other literal true. */
uint32_t bringup_judge(const uint8_t *sheet, size_t sheet_len, uint32_t horizon, const uint8_t *rows, size_t rows_len, uint32_t count,
                       uint32_t root, uint32_t state, const uint8_t *masks, size_t masks_len, uint8_t *answer, size_t answer_len);

/* Place, horizon, effort, rows and root: the least horizon up to the sheet's at which some schedule reaches the goal from every start.
 * On 0 the first `horizon` bytes of the schedule buffer are the first such schedule, and nothing else of it is written; it must have room
 * for the sheet's H. The row buffer is as after compile, with the last horizon's circuit after 0 and 9. */
uint32_t bringup_plan(const uint8_t *sheet, size_t sheet_len, uint32_t limit, uint8_t *rows, size_t rows_len, uint8_t *schedule,
                      size_t schedule_len, uint8_t *answer, size_t answer_len);

#ifdef __cplusplus
}
#endif

#endif
