/*
 * Every function of the library called, served and turned away, each refusal by its name, mostly on document 01's box of nodes 4, 5
 * and 7. It is C and C++ alike: tests/calls.sh compiles it as both.
 */
#include "three_nodes.h"

static int same_session(mogtriz_session one, mogtriz_session other)
{
    return one.family == other.family && one.k == other.k && one.len == other.len && one.steps == other.steps &&
           memcmp(one.live, other.live, sizeof one.live) == 0 && memcmp(one.reads, other.reads, sizeof one.reads) == 0;
}

static mogtriz_session no_session(void)
{
    mogtriz_session session;
    memset(&session, 0, sizeof session);
    return session;
}

static void call_codes(void)
{
    EXPECT(mogtriz_version() == MOGTRIZ_VERSION);
    EXPECT(mogtriz_node_count(MOGTRIZ_SIMPLEX, K) == N);
    EXPECT(mogtriz_node_count(MOGTRIZ_SIMPLEX, 9) == 0);
    EXPECT(mogtriz_column(MOGTRIZ_TETRAHEDRON, 4, 5) == 5);
    EXPECT(mogtriz_column(MOGTRIZ_TETRAHEDRON, 4, 15) == 0);
    EXPECT(mogtriz_node_of_column(MOGTRIZ_WEIGHT_TWO, 3, 3) == 4);
    EXPECT(mogtriz_node_of_column(MOGTRIZ_WEIGHT_TWO, 3, 7) == 0);
    EXPECT(mogtriz_related(MOGTRIZ_SIMPLEX, K, 1, 4, 5) == 1);
    EXPECT(mogtriz_related(MOGTRIZ_SIMPLEX, K, 1, 4, 7) == 0);
}

static void call_encode(void)
{
    uint8_t nodes[N * LEN] = {0};
    EXPECT(mogtriz_encode(MOGTRIZ_SIMPLEX, K, LEN, object, sizeof object, nodes, sizeof nodes - 1) == MOGTRIZ_REFUSED_BUFFER_LENGTH);
    EXPECT(nodes[0] == 0);
    EXPECT(mogtriz_encode(MOGTRIZ_SIMPLEX, K, LEN, object, sizeof object, nodes, sizeof nodes) == MOGTRIZ_SERVED);
    EXPECT(memcmp(nodes, all_nodes, sizeof nodes) == 0);
}

/* Byte t goes to block t % K + 1 at place t / K, and back. */
static void call_interleaving(void)
{
    enum { TWO = 2, OBJECT = K * TWO };
    const uint8_t deposited[OBJECT] = {'a', 'b', 'c', 'd', 'e', 'f'};
    const uint8_t interleaved[OBJECT] = {'a', 'd', 'b', 'e', 'c', 'f'};
    uint8_t out[OBJECT + 1];
    memset(out, 0xaa, sizeof out);
    EXPECT(mogtriz_interleave(4, 9, 0, deposited, OBJECT, out, sizeof out) == MOGTRIZ_REFUSED_FAMILY_UNKNOWN);
    EXPECT(mogtriz_interleave(MOGTRIZ_SIMPLEX, 9, 0, deposited, OBJECT, out, sizeof out) == MOGTRIZ_REFUSED_K_OUT_OF_RANGE);
    EXPECT(mogtriz_interleave(MOGTRIZ_SIMPLEX, K, 0, deposited, OBJECT, out, sizeof out) == MOGTRIZ_REFUSED_LEN_OUT_OF_RANGE);
    EXPECT(mogtriz_interleave(MOGTRIZ_SIMPLEX, K, TWO, deposited, OBJECT, out, sizeof out) == MOGTRIZ_REFUSED_BUFFER_LENGTH);
    EXPECT(mogtriz_interleave(MOGTRIZ_SIMPLEX, K, TWO, deposited, OBJECT - 1, out, OBJECT) == MOGTRIZ_REFUSED_BUFFER_LENGTH);
    EXPECT(out[0] == 0xaa && memcmp(out, out + 1, OBJECT) == 0);
    EXPECT(mogtriz_interleave(MOGTRIZ_SIMPLEX, K, TWO, deposited, OBJECT, out, OBJECT) == MOGTRIZ_SERVED);
    EXPECT(memcmp(out, interleaved, OBJECT) == 0 && out[OBJECT] == 0xaa);

    memset(out, 0xaa, sizeof out);
    EXPECT(mogtriz_deinterleave(0, 23, 0, interleaved, OBJECT, out, sizeof out) == MOGTRIZ_REFUSED_FAMILY_UNKNOWN);
    EXPECT(mogtriz_deinterleave(MOGTRIZ_WEIGHT_TWO, 23, 0, interleaved, OBJECT, out, sizeof out) == MOGTRIZ_REFUSED_K_OUT_OF_RANGE);
    EXPECT(mogtriz_deinterleave(MOGTRIZ_WEIGHT_TWO, K, MOGTRIZ_MOST_LEN + 1, interleaved, OBJECT, out, sizeof out) ==
           MOGTRIZ_REFUSED_LEN_OUT_OF_RANGE);
    EXPECT(mogtriz_deinterleave(MOGTRIZ_WEIGHT_TWO, K, TWO, interleaved, OBJECT, out, OBJECT - 1) == MOGTRIZ_REFUSED_BUFFER_LENGTH);
    EXPECT(mogtriz_deinterleave(MOGTRIZ_WEIGHT_TWO, K, TWO, interleaved, OBJECT - 1, out, OBJECT) == MOGTRIZ_REFUSED_BUFFER_LENGTH);
    EXPECT(out[0] == 0xaa && memcmp(out, out + 1, OBJECT) == 0);
    EXPECT(mogtriz_deinterleave(MOGTRIZ_WEIGHT_TWO, K, TWO, interleaved, OBJECT, out, OBJECT) == MOGTRIZ_SERVED);
    EXPECT(memcmp(out, deposited, OBJECT) == 0 && out[OBJECT] == 0xaa);
}

/* Interleaved, encoded, nodes 4, 5 and 7 put away as a box, read, a step and a run made, read out, deinterleaved: the object that was put
   in. */
static void call_the_whole_way(void)
{
    enum { TWO = 2, OBJECT = K * TWO, NODES = N * TWO };
    const uint8_t deposited[OBJECT] = {'a', 'b', 'c', 'd', 'e', 'f'};
    uint8_t spread[OBJECT], nodes[NODES], box[8 + 3 + 3 * TWO], read_out[OBJECT], received[OBJECT];
    EXPECT(mogtriz_interleave(MOGTRIZ_SIMPLEX, K, TWO, deposited, OBJECT, spread, OBJECT) == MOGTRIZ_SERVED);
    EXPECT(mogtriz_encode(MOGTRIZ_SIMPLEX, K, TWO, spread, OBJECT, nodes, NODES) == MOGTRIZ_SERVED);
    mogtriz_started started = mogtriz_start(MOGTRIZ_SIMPLEX, K, TWO, kept, sizeof kept);
    mogtriz_written written = mogtriz_write(started.session, nodes, NODES, kept, sizeof kept, box, sizeof box);
    EXPECT(written.refusal == MOGTRIZ_SERVED && written.length == sizeof box);
    memset(nodes, 0, NODES);
    mogtriz_started read = mogtriz_read(box, sizeof box, nodes, NODES);
    EXPECT(read.refusal == MOGTRIZ_SERVED);
    mogtriz_stepped stepped = mogtriz_step(read.session, nodes, NODES, 1, 4, 5);
    EXPECT(stepped.refusal == MOGTRIZ_SERVED);
    mogtriz_repairs run = mogtriz_run(stepped.session, nodes, NODES);
    EXPECT(run.refusal == MOGTRIZ_SERVED && run.left == 0);
    EXPECT(mogtriz_read_out(run.session, nodes, NODES, read_out, OBJECT).refusal == MOGTRIZ_SERVED);
    EXPECT(memcmp(read_out, spread, OBJECT) == 0);
    EXPECT(mogtriz_deinterleave(MOGTRIZ_SIMPLEX, K, TWO, read_out, OBJECT, received, OBJECT) == MOGTRIZ_SERVED);
    EXPECT(memcmp(received, deposited, OBJECT) == 0);
}

static void call_start(void)
{
    const uint8_t falling[] = {5, 4};
    mogtriz_started started = mogtriz_start(MOGTRIZ_SIMPLEX, K, LEN, kept, sizeof kept);
    EXPECT(started.refusal == MOGTRIZ_SERVED);
    EXPECT(started.session.family == MOGTRIZ_SIMPLEX && started.session.k == K && started.session.len == LEN);
    for (size_t node = 0; node < sizeof started.session.live; node++) {
        EXPECT(started.session.live[node] == (node == 4 || node == 5 || node == 7));
        EXPECT(started.session.reads[node] == 0);
    }
    EXPECT(started.session.steps == 0);
    started = mogtriz_start(MOGTRIZ_SIMPLEX, K, LEN, falling, sizeof falling);
    EXPECT(started.refusal == MOGTRIZ_REFUSED_NOT_RISING);
    EXPECT(same_session(started.session, no_session()));
}

static void call_boxes(void)
{
    uint8_t nodes[N * LEN] = {0}, out[sizeof three_box + 1], miscounted[sizeof three_box];
    mogtriz_started checked = mogtriz_check(three_box, sizeof three_box);
    EXPECT(checked.refusal == MOGTRIZ_SERVED && same_session(checked.session, three_live()));
    checked = mogtriz_check(three_box, sizeof three_box - 1);
    EXPECT(checked.refusal == MOGTRIZ_REFUSED_BOX_LENGTH && same_session(checked.session, no_session()));
    memcpy(miscounted, three_box, sizeof miscounted);
    miscounted[4] = N + 1;
    checked = mogtriz_check(miscounted, sizeof miscounted);
    EXPECT(checked.refusal == MOGTRIZ_REFUSED_TOO_MANY_NODES && same_session(checked.session, no_session()));

    mogtriz_started box_read = mogtriz_read(three_box, sizeof three_box, nodes, sizeof nodes);
    EXPECT(box_read.refusal == MOGTRIZ_SERVED && same_session(box_read.session, three_live()));
    EXPECT(memcmp(nodes, three_nodes, sizeof nodes) == 0);
    box_read = mogtriz_read(three_box, sizeof three_box, nodes, sizeof nodes - 1);
    EXPECT(box_read.refusal == MOGTRIZ_REFUSED_BUFFER_LENGTH && same_session(box_read.session, no_session()));

    mogtriz_part part = mogtriz_body(three_box, sizeof three_box, 7);
    EXPECT(part.refusal == MOGTRIZ_SERVED && part.from == 13 && part.length == LEN);
    part = mogtriz_body(three_box, sizeof three_box, 6);
    EXPECT(part.refusal == MOGTRIZ_REFUSED_NODE_MISSING && part.from == 0 && part.length == 0);

    memset(out, 0xaa, sizeof out);
    mogtriz_written written = mogtriz_write(three_live(), nodes, sizeof nodes, kept, sizeof kept, out, sizeof out);
    EXPECT(written.refusal == MOGTRIZ_SERVED && written.length == sizeof three_box && same_session(written.session, three_live()));
    EXPECT(memcmp(out, three_box, sizeof three_box) == 0 && out[sizeof three_box] == 0xaa);
    written = mogtriz_write(no_session(), nodes, sizeof nodes, kept, sizeof kept, out, sizeof out);
    EXPECT(written.refusal == MOGTRIZ_REFUSED_NO_SUCH_SESSION && written.length == 0 && same_session(written.session, no_session()));
}

/* A box in graded order: with k 4, positions 4, 5 and 8 are nodes 8, 3 and 6. */
static void call_conversions(void)
{
    const uint8_t theirs[] = {MOGTRIZ_SIMPLEX, 4, LEN, 0, 3, 0, 0, 0, 4, 5, 8, 'a', 'b', 'c'};
    const uint8_t ours[sizeof theirs] = {MOGTRIZ_SIMPLEX, 4, LEN, 0, 3, 0, 0, 0, 3, 6, 8, 'b', 'c', 'a'};
    const uint8_t weight_two[MOGTRIZ_BOX_HEAD] = {MOGTRIZ_WEIGHT_TWO, 4, LEN, 0, 0, 0, 0, 0};
    uint8_t out[sizeof theirs + 1];
    memset(out, 0xaa, sizeof out);
    mogtriz_converted converted = mogtriz_from_graded(theirs, sizeof theirs, out, sizeof theirs - 1);
    EXPECT(converted.refusal == MOGTRIZ_REFUSED_BUFFER_LENGTH && converted.length == 0 && out[0] == 0xaa);
    converted = mogtriz_from_graded(weight_two, sizeof weight_two, out, sizeof out);
    EXPECT(converted.refusal == MOGTRIZ_REFUSED_FAMILY_UNKNOWN && converted.length == 0 && out[0] == 0xaa);
    converted = mogtriz_from_graded(theirs, sizeof theirs, out, sizeof out);
    EXPECT(converted.refusal == MOGTRIZ_SERVED && converted.length == sizeof ours);
    EXPECT(memcmp(out, ours, sizeof ours) == 0 && out[sizeof ours] == 0xaa);

    memset(out, 0xaa, sizeof out);
    converted = mogtriz_to_graded(ours, sizeof ours, out, sizeof ours - 1);
    EXPECT(converted.refusal == MOGTRIZ_REFUSED_BUFFER_LENGTH && converted.length == 0 && out[0] == 0xaa);
    converted = mogtriz_to_graded(ours, sizeof ours - 1, out, sizeof out);
    EXPECT(converted.refusal == MOGTRIZ_REFUSED_BOX_LENGTH && converted.length == 0 && out[0] == 0xaa);
    converted = mogtriz_to_graded(ours, sizeof ours, out, sizeof out);
    EXPECT(converted.refusal == MOGTRIZ_SERVED && converted.length == sizeof theirs);
    EXPECT(memcmp(out, theirs, sizeof theirs) == 0 && out[sizeof theirs] == 0xaa);
}

/* An empty list stands for no node: its box is the head alone, and reads to a session with none live. */
static void call_write_with_no_node(void)
{
    const uint8_t head[MOGTRIZ_BOX_HEAD] = {MOGTRIZ_SIMPLEX, K, LEN, 0, 0, 0, 0, 0};
    uint8_t nodes[N * LEN], out[sizeof head + 1];
    memcpy(nodes, three_nodes, sizeof nodes);
    memset(out, 0xaa, sizeof out);
    EXPECT(mogtriz_write(three_live(), nodes, sizeof nodes, kept, 0, out, sizeof head - 1).refusal == MOGTRIZ_REFUSED_BUFFER_LENGTH);
    EXPECT(out[0] == 0xaa);
    mogtriz_written written = mogtriz_write(three_live(), nodes, sizeof nodes, kept, 0, out, sizeof out);
    EXPECT(written.refusal == MOGTRIZ_SERVED && written.length == sizeof head && same_session(written.session, three_live()));
    EXPECT(memcmp(out, head, sizeof head) == 0 && out[sizeof head] == 0xaa);

    mogtriz_started box_read = mogtriz_read(head, sizeof head, nodes, sizeof nodes);
    EXPECT(box_read.refusal == MOGTRIZ_SERVED && mogtriz_live_count(box_read.session) == 0);
    EXPECT(memcmp(nodes, three_nodes, sizeof nodes) == 0);
}

/* The live nodes named, which write the box again. */
static void call_live_nodes(void)
{
    uint8_t list[MOGTRIZ_MOST_NODES], out[sizeof three_box];
    memset(list, 0xaa, sizeof list);
    mogtriz_written listed = mogtriz_live_nodes(three_live(), list, sizeof kept - 1);
    EXPECT(listed.refusal == MOGTRIZ_REFUSED_BUFFER_LENGTH && listed.length == 0 && list[0] == 0xaa);
    listed = mogtriz_live_nodes(no_session(), list, sizeof list);
    EXPECT(listed.refusal == MOGTRIZ_REFUSED_NO_SUCH_SESSION && listed.length == 0 && same_session(listed.session, no_session()));
    listed = mogtriz_live_nodes(three_live(), list, sizeof list);
    EXPECT(listed.refusal == MOGTRIZ_SERVED && listed.length == sizeof kept && same_session(listed.session, three_live()));
    EXPECT(memcmp(list, kept, sizeof kept) == 0 && list[sizeof kept] == 0xaa);
    EXPECT(mogtriz_write(three_live(), three_nodes, sizeof three_nodes, list, listed.length, out, sizeof out).refusal == MOGTRIZ_SERVED);
    EXPECT(memcmp(out, three_box, sizeof out) == 0);
}

static void call_read_out(void)
{
    const uint8_t data[] = {1, 2, 4};
    uint8_t again[K * LEN] = {0};
    mogtriz_session session = mogtriz_start(MOGTRIZ_SIMPLEX, K, LEN, data, sizeof data).session;
    mogtriz_read_out_answer out = mogtriz_read_out(session, all_nodes, sizeof all_nodes, again, sizeof again);
    EXPECT(out.refusal == MOGTRIZ_SERVED && out.block == 0 && same_session(out.session, session));
    EXPECT(memcmp(again, object, sizeof again) == 0);
    session = mogtriz_start(MOGTRIZ_SIMPLEX, K, LEN, data, 1).session;
    out = mogtriz_read_out(session, all_nodes, sizeof all_nodes, again, sizeof again);
    EXPECT(out.refusal == MOGTRIZ_REFUSED_BLOCK_MISSING && out.block == 2 && same_session(out.session, session));
}

static int found_is(mogtriz_pairs_found found, uint8_t refusal, size_t smaller, size_t larger, size_t count)
{
    return found.refusal == refusal && found.smaller == smaller && found.larger == larger && found.count == count;
}

/* The pairs of a node, live or missing: with nodes 4, 5 and 7 live, and with all. */
static void call_pairs(void)
{
    const mogtriz_session three = three_live(), all = mogtriz_start(MOGTRIZ_SIMPLEX, K, LEN, all_nodes, N).session;
    EXPECT(found_is(mogtriz_pairs(three, 1), MOGTRIZ_SERVED, 4, 5, 1));
    EXPECT(found_is(mogtriz_pairs(three, 2), MOGTRIZ_SERVED, 5, 7, 1));
    EXPECT(found_is(mogtriz_pairs(three, 6), MOGTRIZ_SERVED, 0, 0, 0));
    EXPECT(found_is(mogtriz_pairs(three, 7), MOGTRIZ_SERVED, 0, 0, 0));
    /* node 6 is related to 1 and 7, 2 and 4, 3 and 5 */
    EXPECT(found_is(mogtriz_pairs(all, 6), MOGTRIZ_SERVED, 1, 7, 3));
    EXPECT(same_session(mogtriz_pairs(three, 1).session, three) && same_session(mogtriz_pairs(three, 7).session, three));

    /* the session is looked at before the node */
    mogtriz_session no_mark = three;
    no_mark.live[6] = 2;
    EXPECT(found_is(mogtriz_pairs(no_mark, 1), MOGTRIZ_REFUSED_NO_SUCH_SESSION, 0, 0, 0));
    EXPECT(same_session(mogtriz_pairs(no_mark, 1).session, no_mark));
    EXPECT(found_is(mogtriz_pairs(no_session(), 0), MOGTRIZ_REFUSED_NO_SUCH_SESSION, 0, 0, 0));
    EXPECT(same_session(mogtriz_pairs(no_session(), 0).session, no_session()));
    EXPECT(found_is(mogtriz_pairs(all, 0), MOGTRIZ_REFUSED_NO_SUCH_NODE, 0, 0, 0));
    EXPECT(found_is(mogtriz_pairs(all, N + 1), MOGTRIZ_REFUSED_NO_SUCH_NODE, 0, 0, 0));
    EXPECT(found_is(mogtriz_pairs(all, SIZE_MAX), MOGTRIZ_REFUSED_NO_SUCH_NODE, 0, 0, 0));
    EXPECT(same_session(mogtriz_pairs(all, N + 1).session, all));
}

static void call_repairs(void)
{
    const uint8_t wanted[] = {1, 1, 4, 5, 2, 2, 5, 7, 3, 3, 1, 2, 4, 6, 1, 7};
    uint8_t steps[4 * N], nodes[N * LEN];
    memcpy(nodes, three_nodes, sizeof nodes);

    mogtriz_stepped stepped = mogtriz_step(three_live(), nodes, sizeof nodes, 6, 1, 7);
    EXPECT(stepped.refusal == MOGTRIZ_REFUSED_NODE_MISSING && same_session(stepped.session, three_live()));
    stepped = mogtriz_step(three_live(), nodes, sizeof nodes, 1, 4, 5);
    EXPECT(stepped.refusal == MOGTRIZ_SERVED && stepped.session.live[1] == 1 && nodes[0] == 1);

    mogtriz_repairs plan = mogtriz_plan(three_live(), steps, sizeof steps);
    EXPECT(plan.refusal == MOGTRIZ_SERVED && plan.steps == 4 && plan.rounds == 4 && plan.left == 0);
    EXPECT(same_session(plan.session, three_live()) && memcmp(steps, wanted, sizeof wanted) == 0);
    plan = mogtriz_plan(three_live(), steps, sizeof wanted - 1);
    EXPECT(plan.refusal == MOGTRIZ_REFUSED_BUFFER_LENGTH && plan.steps == 0 && plan.rounds == 0 && plan.left == 0);

    memcpy(nodes, three_nodes, sizeof nodes);
    mogtriz_repairs run = mogtriz_run(three_live(), nodes, sizeof nodes);
    EXPECT(run.refusal == MOGTRIZ_SERVED && run.steps == 4 && run.rounds == 4 && run.left == 0);
    EXPECT(run.session.live[1] == 1 && run.session.live[6] == 1 && memcmp(nodes, all_nodes, sizeof nodes) == 0);
    run = mogtriz_run(no_session(), nodes, sizeof nodes);
    EXPECT(run.refusal == MOGTRIZ_REFUSED_NO_SUCH_SESSION && run.steps == 0 && same_session(run.session, no_session()));
}

static int checked_is(mogtriz_plan_checked checked, uint8_t refusal, size_t bad_step, mogtriz_session session)
{
    return checked.refusal == refusal && checked.bad_step == bad_step && same_session(checked.session, session);
}

static int carried_is(mogtriz_carried carried, uint8_t refusal, size_t bad_step, mogtriz_session session)
{
    return carried.refusal == refusal && carried.bad_step == bad_step && same_session(carried.session, session);
}

/* The number of the first bad step of a plan, with nodes 4, 5 and 7 live. */
static size_t bad_step_of(const uint8_t *plan, size_t plan_len)
{
    mogtriz_plan_checked checked = mogtriz_check_plan(three_live(), plan, plan_len);
    EXPECT(checked_is(checked, MOGTRIZ_SERVED, checked.bad_step, three_live()));
    return checked.bad_step;
}

/* Plans made elsewhere: the last step of each that is not accepted is bad, and the plan before it is good. */
static void call_to_check_plans(void)
{
    /* our own, and another one */
    const uint8_t ours[] = {1, 1, 4, 5, 2, 2, 5, 7, 3, 3, 1, 2, 4, 6, 1, 7};
    const uint8_t theirs[] = {1, 3, 4, 7, 2, 1, 4, 5, 3, 6, 1, 7, 4, 2, 1, 3};
    const uint8_t begins_at_0[] = {0, 1, 4, 5}, begins_at_2[] = {2, 1, 4, 5};
    const uint8_t rises_by_2[] = {1, 1, 4, 5, 3, 2, 5, 7}, falls[] = {1, 1, 4, 5, 2, 2, 5, 7, 1, 3, 4, 7};
    const uint8_t no_node[] = {1, 0, 4, 5}, above_n[] = {1, N + 1, 4, 5}, no_smaller[] = {1, 1, 0, 5}, large[] = {1, 1, 4, N + 1};
    const uint8_t exchanged[] = {1, 1, 5, 4}, equal[] = {1, 1, 4, 4};
    const uint8_t live[] = {1, 4, 5, 7}, twice[] = {1, 1, 4, 5, 2, 1, 4, 5};
    const uint8_t not_related[] = {1, 1, 4, 7}, missing[] = {1, 6, 1, 7};
    const uint8_t of_its_round[] = {1, 1, 4, 5, 1, 6, 1, 7}, read_twice[] = {1, 1, 4, 5, 1, 2, 5, 7};
    EXPECT(bad_step_of(ours, sizeof ours) == 0 && bad_step_of(theirs, sizeof theirs) == 0);
    EXPECT(bad_step_of(ours, 0) == 0);
    EXPECT(bad_step_of(begins_at_0, sizeof begins_at_0) == 1 && bad_step_of(begins_at_2, sizeof begins_at_2) == 1);
    EXPECT(bad_step_of(rises_by_2, sizeof rises_by_2) == 2 && bad_step_of(falls, sizeof falls) == 3);
    EXPECT(bad_step_of(no_node, sizeof no_node) == 1 && bad_step_of(above_n, sizeof above_n) == 1);
    EXPECT(bad_step_of(no_smaller, sizeof no_smaller) == 1 && bad_step_of(large, sizeof large) == 1);
    EXPECT(bad_step_of(exchanged, sizeof exchanged) == 1 && bad_step_of(equal, sizeof equal) == 1);
    EXPECT(bad_step_of(live, sizeof live) == 1 && bad_step_of(twice, sizeof twice) == 2);
    EXPECT(bad_step_of(not_related, sizeof not_related) == 1 && bad_step_of(missing, sizeof missing) == 1);
    EXPECT(bad_step_of(of_its_round, sizeof of_its_round) == 2 && bad_step_of(read_twice, sizeof read_twice) == 2);

    /* the session is looked at before the length, and both before the steps */
    EXPECT(checked_is(mogtriz_check_plan(no_session(), ours, 3), MOGTRIZ_REFUSED_NO_SUCH_SESSION, 0, no_session()));
    mogtriz_session no_mark = three_live();
    no_mark.live[6] = 2;
    EXPECT(checked_is(mogtriz_check_plan(no_mark, ours, sizeof ours), MOGTRIZ_REFUSED_NO_SUCH_SESSION, 0, no_mark));
    for (size_t more = 1; more <= 3; more++) {
        EXPECT(checked_is(mogtriz_check_plan(three_live(), twice, 4 + more), MOGTRIZ_REFUSED_BUFFER_LENGTH, 0, three_live()));
    }
}

static void call_to_carry_plans(void)
{
    const uint8_t theirs[] = {1, 3, 4, 7, 2, 1, 4, 5, 3, 6, 1, 7, 4, 2, 1, 3}, bad[] = {1, 1, 4, 5, 1, 2, 5, 7};
    uint8_t nodes[N * LEN];
    memcpy(nodes, three_nodes, sizeof nodes);
    mogtriz_carried carried = mogtriz_carry_plan(no_session(), bad, 3, nodes, sizeof nodes);
    EXPECT(carried_is(carried, MOGTRIZ_REFUSED_NO_SUCH_SESSION, 0, no_session()));
    carried = mogtriz_carry_plan(three_live(), bad, sizeof bad, nodes, sizeof nodes - 1);
    EXPECT(carried_is(carried, MOGTRIZ_REFUSED_BUFFER_LENGTH, 0, three_live()));
    carried = mogtriz_carry_plan(three_live(), bad, sizeof bad - 1, nodes, sizeof nodes);
    EXPECT(carried_is(carried, MOGTRIZ_REFUSED_BUFFER_LENGTH, 0, three_live()));
    /* the step before the bad one is not made either */
    carried = mogtriz_carry_plan(three_live(), bad, sizeof bad, nodes, sizeof nodes);
    EXPECT(carried_is(carried, MOGTRIZ_SERVED, 2, three_live()));
    carried = mogtriz_carry_plan(three_live(), bad, 0, nodes, sizeof nodes);
    EXPECT(carried_is(carried, MOGTRIZ_SERVED, 0, three_live()));
    EXPECT(memcmp(nodes, three_nodes, sizeof nodes) == 0);

    /* as by steps */
    uint8_t stepped_nodes[N * LEN];
    memcpy(stepped_nodes, three_nodes, sizeof stepped_nodes);
    mogtriz_session session = three_live();
    for (size_t i = 0; i < sizeof theirs; i += MOGTRIZ_STEP_LEN) {
        mogtriz_stepped stepped =
            mogtriz_step(session, stepped_nodes, sizeof stepped_nodes, theirs[i + 1], theirs[i + 2], theirs[i + 3]);
        EXPECT(stepped.refusal == MOGTRIZ_SERVED);
        session = stepped.session;
    }
    carried = mogtriz_carry_plan(three_live(), theirs, sizeof theirs, nodes, sizeof nodes);
    EXPECT(carried_is(carried, MOGTRIZ_SERVED, 0, session) && carried.session.steps == 4 && carried.session.reads[7] == 2);
    EXPECT(memcmp(nodes, stepped_nodes, sizeof nodes) == 0 && memcmp(nodes, all_nodes, sizeof nodes) == 0);
    /* nothing is missing then */
    carried = mogtriz_carry_plan(session, theirs, sizeof theirs, nodes, sizeof nodes);
    EXPECT(carried_is(carried, MOGTRIZ_SERVED, 1, session));
}

/* A session in which nodes 4, 5 and 7 are live and these were read so often in so many steps. */
static mogtriz_session counted(size_t steps, uint16_t of_4, uint16_t of_5, uint16_t of_7)
{
    mogtriz_session session = three_live();
    session.steps = steps;
    session.reads[4] = of_4;
    session.reads[5] = of_5;
    session.reads[7] = of_7;
    return session;
}

/* A step reads its two sources, and a run those of every step of its plan, as does a plan that is carried out; no other call counts, and
   none that is turned away. */
static void call_to_be_counted(void)
{
    uint8_t nodes[N * LEN], steps[4 * N], list[N], box[sizeof three_box], again[K * LEN];
    memcpy(nodes, three_nodes, sizeof nodes);
    mogtriz_session wanted = counted(1, 1, 1, 0);
    wanted.live[1] = 1;
    mogtriz_stepped stepped = mogtriz_step(three_live(), nodes, sizeof nodes, 1, 5, 4);
    EXPECT(stepped.refusal == MOGTRIZ_SERVED && same_session(stepped.session, wanted));
    stepped = mogtriz_step(wanted, nodes, sizeof nodes, 3, 1, 2);
    EXPECT(stepped.refusal == MOGTRIZ_REFUSED_NODE_MISSING && same_session(stepped.session, wanted));
    EXPECT(same_session(mogtriz_run(wanted, nodes, sizeof nodes - 1).session, wanted));
    mogtriz_repairs plan = mogtriz_plan(wanted, steps, sizeof steps);
    EXPECT(plan.refusal == MOGTRIZ_SERVED && same_session(plan.session, wanted));
    EXPECT(checked_is(mogtriz_check_plan(wanted, steps, 4 * plan.steps), MOGTRIZ_SERVED, 0, wanted));
    mogtriz_written listed = mogtriz_live_nodes(wanted, list, sizeof list);
    EXPECT(listed.refusal == MOGTRIZ_SERVED && same_session(listed.session, wanted));
    mogtriz_pairs_found found = mogtriz_pairs(wanted, 6);
    EXPECT(found_is(found, MOGTRIZ_SERVED, 1, 7, 1) && same_session(found.session, wanted));
    mogtriz_written written = mogtriz_write(wanted, nodes, sizeof nodes, kept, sizeof kept, box, sizeof box);
    EXPECT(written.refusal == MOGTRIZ_SERVED && same_session(written.session, wanted));

    /* the run goes on with 2 from 5 and 7, 3 from 1 and 2, and 6 from 1 and 7; from the start it is these and 1 from 4 and 5 */
    mogtriz_carried carried = mogtriz_carry_plan(wanted, steps, 4 * plan.steps, nodes, sizeof nodes);
    mogtriz_repairs run = mogtriz_run(wanted, nodes, sizeof nodes);
    wanted = counted(4, 1, 2, 2);
    wanted.reads[1] = 2;
    wanted.reads[2] = 1;
    memset(wanted.live + 1, 1, N);
    EXPECT(run.refusal == MOGTRIZ_SERVED && run.steps == 3 && same_session(run.session, wanted));
    EXPECT(carried_is(carried, MOGTRIZ_SERVED, 0, wanted));
    run = mogtriz_run(three_live(), nodes, sizeof nodes);
    EXPECT(run.refusal == MOGTRIZ_SERVED && run.steps == 4 && same_session(run.session, wanted));
    mogtriz_read_out_answer out = mogtriz_read_out(wanted, nodes, sizeof nodes, again, sizeof again);
    EXPECT(out.refusal == MOGTRIZ_SERVED && same_session(out.session, wanted));

    /* counts that no steps lead to are taken, and counted on; those that do not agree are not */
    stepped = mogtriz_step(counted(2, 4, 0, 0), nodes, sizeof nodes, 1, 4, 5);
    EXPECT(stepped.refusal == MOGTRIZ_SERVED && stepped.session.steps == 3);
    EXPECT(stepped.session.reads[4] == 5 && stepped.session.reads[5] == 1);
    stepped = mogtriz_step(counted(2, 4, 1, 0), nodes, sizeof nodes, 1, 4, 5);
    EXPECT(stepped.refusal == MOGTRIZ_REFUSED_NO_SUCH_SESSION && same_session(stepped.session, counted(2, 4, 1, 0)));
}

/* A box like the three nodes' but for one byte is turned away. */
static uint8_t refusal_with(size_t place, uint8_t byte)
{
    uint8_t box[sizeof three_box];
    memcpy(box, three_box, sizeof box);
    box[place] = byte;
    return mogtriz_check(box, sizeof box).refusal;
}

/* The names of refusals that the calls above do not give. */
static void call_to_be_refused(void)
{
    uint8_t nodes[N * LEN];
    memcpy(nodes, three_nodes, sizeof nodes);
    EXPECT(refusal_with(0, 4) == MOGTRIZ_REFUSED_FAMILY_UNKNOWN);
    EXPECT(refusal_with(1, 9) == MOGTRIZ_REFUSED_K_OUT_OF_RANGE);
    EXPECT(refusal_with(2, 0) == MOGTRIZ_REFUSED_LEN_OUT_OF_RANGE);
    EXPECT(refusal_with(4, 4) == MOGTRIZ_REFUSED_BOX_LENGTH);
    EXPECT(refusal_with(5, 1) == MOGTRIZ_REFUSED_NOT_ZERO);
    EXPECT(refusal_with(8, 0) == MOGTRIZ_REFUSED_NO_SUCH_NODE);

    /* a box that counts 8 nodes and is as long as 8 would make it */
    uint8_t eight[MOGTRIZ_BOX_HEAD + 8 + 8 * LEN] = {MOGTRIZ_SIMPLEX, K, LEN, 0, 8};
    EXPECT(mogtriz_check(eight, sizeof eight).refusal == MOGTRIZ_REFUSED_TOO_MANY_NODES);

    EXPECT(mogtriz_step(three_live(), nodes, sizeof nodes, 1, 4, 7).refusal == MOGTRIZ_REFUSED_NOT_RELATED);
    EXPECT(mogtriz_step(three_live(), nodes, sizeof nodes, 4, 1, 5).refusal == MOGTRIZ_REFUSED_ALREADY_LIVE);
}

/* A name with no bracket after it is the library's function, which a program may hand on. */
static void call_by_address(void)
{
    uint8_t (*encode)(size_t, size_t, size_t, const uint8_t *, size_t, uint8_t *, size_t) = mogtriz_encode;
    mogtriz_repairs (*run)(mogtriz_session, uint8_t *, size_t) = &mogtriz_run;
    uint8_t nodes[N * LEN] = {0};
    EXPECT(encode(MOGTRIZ_SIMPLEX, K, LEN, object, sizeof object, nodes, sizeof nodes) == MOGTRIZ_SERVED);
    EXPECT(memcmp(nodes, all_nodes, sizeof nodes) == 0);
    EXPECT(run(three_live(), nodes, sizeof nodes).steps == 4);
}

int main(void)
{
    call_codes();
    call_encode();
    call_interleaving();
    call_the_whole_way();
    call_start();
    call_boxes();
    call_conversions();
    call_write_with_no_node();
    call_live_nodes();
    call_read_out();
    call_pairs();
    call_repairs();
    call_to_check_plans();
    call_to_carry_plans();
    call_to_be_counted();
    call_to_be_refused();
    call_by_address();
    return wrong == 0 ? 0 : 1;
}
