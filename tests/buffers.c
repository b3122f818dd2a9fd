/*
 * Buffers as an empty std::vector gives them, null and 0, in every call and for every pointer; and buffers that are the caller's
 * fault. Compiled under sanitizers, with MOGTRIZ_CHECK_BUFFERS and without. With no argument it tries the first and prints how many
 * faults it has with null, and how many in all; with a fault's number it makes that one, which ends it.
 */
#include "three_nodes.h"

#include <stdlib.h>

static uint8_t nodes[N * LEN], again[K * LEN], out[sizeof three_box];

/* A plan of one step, which is good with nodes 4, 5 and 7 live. */
static const uint8_t one_step[MOGTRIZ_STEP_LEN] = {1, 1, 4, 5};

/* Null, where no compiler can know it. */
static uint8_t *volatile null = NULL;

static void codes_take_empty_buffers(void)
{
    EXPECT(mogtriz_encode(MOGTRIZ_SIMPLEX, K, LEN, null, 0, nodes, sizeof nodes) == MOGTRIZ_REFUSED_BUFFER_LENGTH);
    EXPECT(mogtriz_encode(MOGTRIZ_SIMPLEX, K, LEN, object, sizeof object, null, 0) == MOGTRIZ_REFUSED_BUFFER_LENGTH);
    EXPECT(mogtriz_encode(MOGTRIZ_SIMPLEX, K, LEN, null, 0, null, 0) == MOGTRIZ_REFUSED_BUFFER_LENGTH);
    EXPECT(mogtriz_interleave(MOGTRIZ_SIMPLEX, K, LEN, null, 0, again, sizeof again) == MOGTRIZ_REFUSED_BUFFER_LENGTH);
    EXPECT(mogtriz_interleave(MOGTRIZ_SIMPLEX, K, LEN, object, sizeof object, null, 0) == MOGTRIZ_REFUSED_BUFFER_LENGTH);
    EXPECT(mogtriz_interleave(MOGTRIZ_SIMPLEX, K, LEN, null, 0, null, 0) == MOGTRIZ_REFUSED_BUFFER_LENGTH);
    EXPECT(mogtriz_deinterleave(MOGTRIZ_SIMPLEX, K, LEN, null, 0, again, sizeof again) == MOGTRIZ_REFUSED_BUFFER_LENGTH);
    EXPECT(mogtriz_deinterleave(MOGTRIZ_SIMPLEX, K, LEN, object, sizeof object, null, 0) == MOGTRIZ_REFUSED_BUFFER_LENGTH);
    EXPECT(mogtriz_deinterleave(MOGTRIZ_SIMPLEX, K, LEN, null, 0, null, 0) == MOGTRIZ_REFUSED_BUFFER_LENGTH);
    mogtriz_started started = mogtriz_start(MOGTRIZ_SIMPLEX, K, LEN, null, 0);
    EXPECT(started.refusal == MOGTRIZ_SERVED && mogtriz_live_count(started.session) == 0);
}

static void boxes_take_empty_buffers(void)
{
    EXPECT(mogtriz_check(null, 0).refusal == MOGTRIZ_REFUSED_BOX_LENGTH);
    EXPECT(mogtriz_read(null, 0, nodes, sizeof nodes).refusal == MOGTRIZ_REFUSED_BOX_LENGTH);
    EXPECT(mogtriz_read(three_box, sizeof three_box, null, 0).refusal == MOGTRIZ_REFUSED_BUFFER_LENGTH);
    EXPECT(mogtriz_body(null, 0, 4).refusal == MOGTRIZ_REFUSED_BOX_LENGTH);
    EXPECT(mogtriz_from_graded(null, 0, out, sizeof out).refusal == MOGTRIZ_REFUSED_BOX_LENGTH);
    EXPECT(mogtriz_from_graded(three_box, sizeof three_box, null, 0).refusal == MOGTRIZ_REFUSED_BUFFER_LENGTH);
    EXPECT(mogtriz_to_graded(null, 0, out, sizeof out).refusal == MOGTRIZ_REFUSED_BOX_LENGTH);
    EXPECT(mogtriz_to_graded(three_box, sizeof three_box, null, 0).refusal == MOGTRIZ_REFUSED_BUFFER_LENGTH);
    EXPECT(mogtriz_write(three_live(), null, 0, kept, sizeof kept, out, sizeof out).refusal == MOGTRIZ_REFUSED_BUFFER_LENGTH);
    EXPECT(mogtriz_write(three_live(), three_nodes, sizeof three_nodes, kept, sizeof kept, null, 0).refusal ==
           MOGTRIZ_REFUSED_BUFFER_LENGTH);
    mogtriz_written written = mogtriz_write(three_live(), three_nodes, sizeof three_nodes, null, 0, out, sizeof out);
    EXPECT(written.refusal == MOGTRIZ_SERVED && written.length == MOGTRIZ_BOX_HEAD);
    EXPECT(mogtriz_live_nodes(three_live(), null, 0).refusal == MOGTRIZ_REFUSED_BUFFER_LENGTH);
    mogtriz_session none_live = mogtriz_start(MOGTRIZ_SIMPLEX, K, LEN, null, 0).session;
    EXPECT(mogtriz_live_nodes(none_live, null, 0).refusal == MOGTRIZ_SERVED);
}

static void repairs_take_empty_buffers(void)
{
    const uint8_t all[] = {1, 2, 3, 4, 5, 6, 7};
    mogtriz_session all_live = mogtriz_start(MOGTRIZ_SIMPLEX, K, LEN, all, sizeof all).session;
    EXPECT(mogtriz_read_out(all_live, null, 0, again, sizeof again).refusal == MOGTRIZ_REFUSED_BUFFER_LENGTH);
    EXPECT(mogtriz_read_out(all_live, all_nodes, sizeof all_nodes, null, 0).refusal == MOGTRIZ_REFUSED_BUFFER_LENGTH);
    EXPECT(mogtriz_step(three_live(), null, 0, 1, 4, 5).refusal == MOGTRIZ_REFUSED_BUFFER_LENGTH);
    EXPECT(mogtriz_plan(three_live(), null, 0).refusal == MOGTRIZ_REFUSED_BUFFER_LENGTH);
    EXPECT(mogtriz_plan(all_live, null, 0).refusal == MOGTRIZ_SERVED);
    EXPECT(mogtriz_run(three_live(), null, 0).refusal == MOGTRIZ_REFUSED_BUFFER_LENGTH);
    mogtriz_plan_checked checked = mogtriz_check_plan(three_live(), null, 0);
    EXPECT(checked.refusal == MOGTRIZ_SERVED && checked.bad_step == 0);
    mogtriz_carried carried = mogtriz_carry_plan(three_live(), null, 0, nodes, sizeof nodes);
    EXPECT(carried.refusal == MOGTRIZ_SERVED && carried.bad_step == 0);
    EXPECT(mogtriz_carry_plan(three_live(), one_step, sizeof one_step, null, 0).refusal == MOGTRIZ_REFUSED_BUFFER_LENGTH);
}

/* Buffers side by side, in either order, share no byte. */
static void neighbours_are_no_overlap(void)
{
    uint8_t both[sizeof object + sizeof nodes + sizeof object];
    uint8_t *middle = both + sizeof object;
    memcpy(both, object, sizeof object);
    EXPECT(mogtriz_encode(MOGTRIZ_SIMPLEX, K, LEN, both, sizeof object, middle, sizeof nodes) == MOGTRIZ_SERVED);
    EXPECT(memcmp(middle, all_nodes, sizeof all_nodes) == 0);
    memcpy(middle + sizeof nodes, object, sizeof object);
    EXPECT(mogtriz_encode(MOGTRIZ_SIMPLEX, K, LEN, middle + sizeof nodes, sizeof object, middle, sizeof nodes) == MOGTRIZ_SERVED);
    EXPECT(memcmp(middle, all_nodes, sizeof all_nodes) == 0);
    /* nor does an empty one, wherever it lies */
    EXPECT(mogtriz_encode(MOGTRIZ_SIMPLEX, K, LEN, middle + 1, 0, middle, sizeof nodes) == MOGTRIZ_REFUSED_BUFFER_LENGTH);
    EXPECT(mogtriz_encode(MOGTRIZ_SIMPLEX, K, LEN, both, sizeof object, both + 1, 0) == MOGTRIZ_REFUSED_BUFFER_LENGTH);
}

/* Makes a fault: null with a length above 0, for each pointer of each call. */
static uint8_t null_fault(int fault)
{
    switch (fault) {
    case 1:
        return mogtriz_encode(MOGTRIZ_SIMPLEX, K, LEN, null, K, nodes, sizeof nodes);
    case 2:
        return mogtriz_encode(MOGTRIZ_SIMPLEX, K, LEN, object, sizeof object, null, N);
    case 3:
        return mogtriz_interleave(MOGTRIZ_SIMPLEX, K, LEN, null, K, again, sizeof again);
    case 4:
        return mogtriz_interleave(MOGTRIZ_SIMPLEX, K, LEN, object, sizeof object, null, K);
    case 5:
        return mogtriz_deinterleave(MOGTRIZ_SIMPLEX, K, LEN, null, K, again, sizeof again);
    case 6:
        return mogtriz_deinterleave(MOGTRIZ_SIMPLEX, K, LEN, object, sizeof object, null, K);
    case 7:
        return mogtriz_start(MOGTRIZ_SIMPLEX, K, LEN, null, 1).refusal;
    case 8:
        return mogtriz_check(null, 8).refusal;
    case 9:
        return mogtriz_read(null, 8, nodes, sizeof nodes).refusal;
    case 10:
        return mogtriz_read(three_box, sizeof three_box, null, N).refusal;
    case 11:
        return mogtriz_body(null, 8, 4).refusal;
    case 12:
        return mogtriz_from_graded(null, 8, out, sizeof out).refusal;
    case 13:
        return mogtriz_from_graded(three_box, sizeof three_box, null, sizeof out).refusal;
    case 14:
        return mogtriz_to_graded(null, 8, out, sizeof out).refusal;
    case 15:
        return mogtriz_to_graded(three_box, sizeof three_box, null, sizeof out).refusal;
    case 16:
        return mogtriz_write(three_live(), null, N, kept, sizeof kept, out, sizeof out).refusal;
    case 17:
        return mogtriz_write(three_live(), three_nodes, sizeof three_nodes, null, 1, out, sizeof out).refusal;
    case 18:
        return mogtriz_write(three_live(), three_nodes, sizeof three_nodes, kept, sizeof kept, null, sizeof out).refusal;
    case 19:
        return mogtriz_live_nodes(three_live(), null, 1).refusal;
    case 20:
        return mogtriz_read_out(three_live(), null, N, again, sizeof again).refusal;
    case 21:
        return mogtriz_read_out(three_live(), three_nodes, sizeof three_nodes, null, K).refusal;
    case 22:
        return mogtriz_step(three_live(), null, N, 1, 4, 5).refusal;
    case 23:
        return mogtriz_plan(three_live(), null, 1).refusal;
    case 24:
        return mogtriz_run(three_live(), null, N).refusal;
    case 25:
        return mogtriz_check_plan(three_live(), null, sizeof one_step).refusal;
    case 26:
        return mogtriz_carry_plan(three_live(), null, sizeof one_step, nodes, sizeof nodes).refusal;
    default:
        return mogtriz_carry_plan(three_live(), one_step, sizeof one_step, null, N).refusal;
    }
}

/* Makes a fault: a buffer that is written has a byte in common with another, for each two of a call. */
static uint8_t overlap_fault(int fault)
{
    static uint8_t shared[64];
    switch (fault) {
    case 28:
        return mogtriz_encode(MOGTRIZ_SIMPLEX, K, LEN, shared, K, shared + K - 1, N);
    case 29:
        return mogtriz_encode(MOGTRIZ_SIMPLEX, K, LEN, shared + N - 1, K, shared, N);
    case 30:
        return mogtriz_interleave(MOGTRIZ_SIMPLEX, K, LEN, shared, K, shared + K - 1, K);
    case 31:
        return mogtriz_deinterleave(MOGTRIZ_SIMPLEX, K, LEN, shared + K - 1, K, shared, K);
    case 32:
        return mogtriz_read(shared, sizeof shared, shared, N).refusal;
    case 33:
        return mogtriz_from_graded(shared, sizeof out, shared + sizeof out - 1, sizeof out).refusal;
    case 34:
        return mogtriz_to_graded(shared + sizeof out - 1, sizeof out, shared, sizeof out).refusal;
    case 35:
        return mogtriz_write(three_live(), shared, N, kept, sizeof kept, shared + 1, sizeof out).refusal;
    case 36:
        return mogtriz_write(three_live(), three_nodes, sizeof three_nodes, shared + 1, 1, shared, sizeof out).refusal;
    case 37:
        return mogtriz_read_out(three_live(), shared, N, shared + 1, K).refusal;
    case 38:
        return mogtriz_carry_plan(three_live(), shared, sizeof one_step, shared + sizeof one_step - 1, N).refusal;
    default:
        return mogtriz_carry_plan(three_live(), shared + N - 1, sizeof one_step, shared, N).refusal;
    }
}

enum { NULL_FAULTS = 27, FAULTS = 39 };

int main(int count, char **arguments)
{
    if (count > 1) {
        const int fault = atoi(arguments[1]);
        return fault <= NULL_FAULTS ? null_fault(fault) : overlap_fault(fault);
    }
    codes_take_empty_buffers();
    boxes_take_empty_buffers();
    repairs_take_empty_buffers();
    neighbours_are_no_overlap();
    printf("%d %d\n", NULL_FAULTS, FAULTS);
    return wrong == 0 ? 0 : 1;
}
