/*
 * Meadwhistle: the rule engine under an on-call scheduler.
 *
 * Every function takes any bytes whatever and always returns. Nothing that is lent is kept: each call uses its arguments while it
 * runs and no longer. There is no state but the desk that the caller holds, so calls on different desks, and all other calls, may
 * run side by side. A slice is a pointer and a length; where the length is 0 the pointer may be any, but not null. Buffers that a
 * call writes must not overlap those that it reads.
 *
 * Numbers: 0 accepted; 1 the file is empty; 2 fewer than 4 bytes are left, or fewer than the length; 3 kind not in this file's
 * list; 4 length isn't that kind's; 5 x or y isn't an earlier record; 6 same kind and body as an earlier record; 7 a record
 * follows the 1,024th, or a pair the 256th; 8 the rule's size is above 64; 9 the place is past the answer buffer's end, or the
 * room is too small; 10 notices differ; 11 statuses differ; 12 a remainder isn't in the file; 13 the remainders are neither one
 * record nor listed; 14 a pair names a record that isn't there; 15 a step on a desk with no rule open; 17 program input above
 * 8,192 bytes. 16 isn't used.
 */
#ifndef MEADWHISTLE_H
#define MEADWHISTLE_H

#include <stddef.h>
#include <stdint.h>

#ifdef __cplusplus
extern "C" {
#endif

/* A status, as it stands in replies and in answer records. */
enum {
    MEADWHISTLE_WAITING = 0,
    MEADWHISTLE_SUCCESS = 1,
    MEADWHISTLE_FAILURE = 2
};

/* What a whole feed came to: the number, and how many bytes were written. */
typedef struct {
    uint8_t number;
    size_t written;
} meadwhistle_ran;

/*
 * Answers a whole feed. Each event yields a record of 7 bytes in `answers`, from `place` on: length 7 and kind 32 (two bytes each,
 * lowest first), the notice set (two bytes), the status byte. Other bytes of the buffer stay as they are. The number is that of
 * the rule file, then 8, then 9. Refused: no byte changes, and 0 are written. No events: 0 are written, number 0.
 */
meadwhistle_ran meadwhistle_run(const uint8_t *rule, size_t rule_len,
                                const uint8_t *events, size_t events_len,
                                uint8_t *answers, size_t answers_len,
                                size_t place);

/*
 * A desk: a place for one rule that takes its events one by one. Make it with meadwhistle_desk_empty, change it by the two calls
 * below alone, and copy it as you like. Its fields are the engine's; a step is safe on any bytes in them.
 */
typedef struct {
    uint8_t is_open;
    size_t root;
    uint64_t leaves;
    uint64_t repeats;
    uint64_t active;
    uint64_t going;
    uint16_t nodes[64];
    uint64_t gain[64];
} meadwhistle_desk;

/*
 * What a step answers: the number and, at 0, the event's status, notices and lines; for 15 waiting, none and 0. The lines are the rules
 * of the paper's figure 3 that the status takes, each as often as it is used; on a desk made by these calls they are never more than the
 * nodes of the rule that was opened last, however many events went before.
 */
typedef struct {
    uint8_t number;
    uint8_t status;
    uint16_t notices;
    uint64_t lines;
} meadwhistle_reply;

/* A desk with no rule open. */
meadwhistle_desk meadwhistle_desk_empty(void);

/*
 * Opens a rule on a desk, fresh, also where one is open. The number is that of the rule file, then 8. Refused: each of
 * the desk's fields is as it was.
 */
uint8_t meadwhistle_desk_open(meadwhistle_desk *desk, const uint8_t *rule, size_t rule_len);

/*
 * Moves an open desk on by one event. 15 where no rule is open; then each of the desk's fields is as it was. A finished rule stays
 * open and silent.
 */
meadwhistle_reply meadwhistle_desk_step(meadwhistle_desk *desk, uint8_t event);

/*
 * Judges the proposal that the first pair's two records behave alike: 0 where it is accepted, else the number of the first fault:
 * the expression file's, then the pair file's, then 10 to 13 by pairs in file order and events ascending.
 */
uint8_t meadwhistle_judge(const uint8_t *expressions, size_t expressions_len,
                          const uint8_t *pairs, size_t pairs_len);

/* Where the faulty record of a proposal stands: file 0 is the expressions, 1 the pairs. The part runs from `place` to that file's end. */
typedef struct {
    uint8_t file;
    size_t place;
} meadwhistle_part;

/* The faulty record of the same proposal. For 10 to 13 it is the pair; where the proposal is accepted, the empty part at the pairs' end. */
meadwhistle_part meadwhistle_shown(const uint8_t *expressions, size_t expressions_len,
                                   const uint8_t *pairs, size_t pairs_len);

/*
 * The printer's text for an input: two bytes of length, a rule file of that length, then the events. Returns the text's length. The
 * text is written at the front of `output` where it fits; where it does not, no byte of `output` changes.
 */
size_t meadwhistle_print(const uint8_t *input, size_t input_len, uint8_t *output, size_t output_len);

#ifdef __cplusplus
}
#endif

#endif
