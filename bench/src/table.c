/*
 * The swap rule as a table automaton: for each state and each byte the answer record and the next state. It knows this one rule and no
 * other, so it is the limit for an engine that takes every rule.
 */
#include <stddef.h>
#include <stdint.h>
#include <string.h>

enum { BYTES = 256, ANSWER_LENGTH = 7 };
enum { AT_REST, OFFERED, ACCEPTED, OVER, STATES };
enum { WAITING = 0, FAILURE = 2 };

static uint8_t records[STATES * BYTES][8]; /* a byte more than an answer has, so that a cell is found by a shift */
static uint16_t nexts[STATES * BYTES];     /* states times BYTES, so that the next cell is found by an or */

static void set(int state, int event, uint8_t notices, uint8_t status, int next)
{
    int cell = state * BYTES + event;
    const uint8_t record[8] = {ANSWER_LENGTH, 0, 32, 0, notices, 0, status};
    memcpy(records[cell], record, sizeof record);
    nexts[cell] = next * BYTES;
}

static void fill(void)
{
    for (int state = 0; state < STATES; state++)
        for (int event = 0; event < BYTES; event++)
            set(state, event, 0, WAITING, state);
    set(AT_REST, 'o', 0, WAITING, OFFERED);
    set(OFFERED, 'a', 0, WAITING, ACCEPTED);
    set(ACCEPTED, 'c', 3, WAITING, AT_REST);
    set(OFFERED, 'w', 0, FAILURE, OVER);
    set(ACCEPTED, 'w', 0, FAILURE, OVER);
}

/* Answers a whole feed: ANSWER_LENGTH bytes an event. */
void table_run(const uint8_t *restrict events, size_t count, uint8_t *restrict answers)
{
    size_t state = AT_REST * BYTES;
    fill();
    for (size_t i = 0; i < count; i++) {
        size_t cell = state | events[i];
        memcpy(answers + ANSWER_LENGTH * i, records[cell], ANSWER_LENGTH);
        state = nexts[cell];
    }
}
