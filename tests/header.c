/*
 * What the header says by itself, held to the library: families and limits, lengths, plans that are accepted, how many pairs a node
 * has, the counts of a session that is taken, refusals' texts, and which node has which column.
 * It prints the header's sentences on the tetrahedron, on interleaving and on graded order, with the columns, bytes and nodes that the
 * library gives.
 */
#include "three_nodes.h"

#include <stdlib.h>

/* A code's numbers. */
typedef struct {
    size_t family, least_k, most_k;
} family_range;

static const family_range families[] = {
    {MOGTRIZ_SIMPLEX, MOGTRIZ_SIMPLEX_LEAST_K, MOGTRIZ_SIMPLEX_MOST_K},
    {MOGTRIZ_WEIGHT_TWO, MOGTRIZ_WEIGHT_TWO_LEAST_K, MOGTRIZ_WEIGHT_TWO_MOST_K},
    {MOGTRIZ_TETRAHEDRON, MOGTRIZ_TETRAHEDRON_LEAST_K, MOGTRIZ_TETRAHEDRON_MOST_K},
};

enum { FAMILIES = sizeof families / sizeof families[0] };

/* Room for the longest buffers, and a byte more. */
static uint8_t long_object[MOGTRIZ_MOST_OBJECT_LEN + 1], other_object[MOGTRIZ_MOST_OBJECT_LEN + 1];
static uint8_t long_nodes[MOGTRIZ_MOST_NODES_LEN + 1];
static uint8_t long_box[MOGTRIZ_MOST_BOX_LEN], converted_box[MOGTRIZ_MOST_BOX_LEN];

static uint8_t start_refusal(size_t family, size_t k, size_t len)
{
    return mogtriz_start(family, k, len, NULL, 0).refusal;
}

static size_t count_by_formula(size_t family, size_t k)
{
    switch (family) {
    case MOGTRIZ_SIMPLEX:
        return ((size_t)1 << k) - 1;
    case MOGTRIZ_WEIGHT_TWO:
        return k * (k + 1) / 2;
    default:
        return 14;
    }
}

static void hold_families(void)
{
    for (size_t i = 0; i < FAMILIES; i++) {
        const size_t family = families[i].family;
        EXPECT(start_refusal(family, families[i].least_k - 1, 1) == MOGTRIZ_REFUSED_K_OUT_OF_RANGE);
        EXPECT(start_refusal(family, families[i].most_k + 1, 1) == MOGTRIZ_REFUSED_K_OUT_OF_RANGE);
        for (size_t k = families[i].least_k; k <= families[i].most_k; k++) {
            EXPECT(start_refusal(family, k, 1) == MOGTRIZ_SERVED);
            EXPECT(mogtriz_node_count(family, k) == count_by_formula(family, k));
        }
    }
    EXPECT(start_refusal(0, 4, 1) == MOGTRIZ_REFUSED_FAMILY_UNKNOWN);
    EXPECT(start_refusal(FAMILIES + 1, 4, 1) == MOGTRIZ_REFUSED_FAMILY_UNKNOWN);
}

static size_t larger(size_t one, size_t other)
{
    return one > other ? one : other;
}

static void hold_limits(void)
{
    size_t k_most = 0, nodes_most = 0, object_len = 0, nodes_len = 0, box_len = 0;
    for (size_t family = 0; family <= FAMILIES + 1; family++) {
        for (size_t k = 0; k <= 64; k++) {
            const size_t n = mogtriz_node_count(family, k);
            k_most = n > 0 ? larger(k_most, k) : k_most;
            nodes_most = larger(nodes_most, n);
            object_len = larger(object_len, mogtriz_object_len(family, k, MOGTRIZ_MOST_LEN));
            nodes_len = larger(nodes_len, mogtriz_nodes_len(family, k, MOGTRIZ_MOST_LEN));
            box_len = larger(box_len, mogtriz_box_len(family, k, MOGTRIZ_MOST_LEN, n));
        }
    }
    EXPECT(k_most == MOGTRIZ_MOST_K && nodes_most == MOGTRIZ_MOST_NODES);
    EXPECT(object_len == MOGTRIZ_MOST_OBJECT_LEN);
    EXPECT(nodes_len == MOGTRIZ_MOST_NODES_LEN);
    EXPECT(box_len == MOGTRIZ_MOST_BOX_LEN);
    EXPECT(start_refusal(MOGTRIZ_SIMPLEX, K, 0) == MOGTRIZ_REFUSED_LEN_OUT_OF_RANGE);
    EXPECT(start_refusal(MOGTRIZ_SIMPLEX, K, 1) == MOGTRIZ_SERVED);
    EXPECT(start_refusal(MOGTRIZ_SIMPLEX, K, MOGTRIZ_MOST_LEN) == MOGTRIZ_SERVED);
    EXPECT(start_refusal(MOGTRIZ_SIMPLEX, K, MOGTRIZ_MOST_LEN + 1) == MOGTRIZ_REFUSED_LEN_OUT_OF_RANGE);
}

/* Just the object's and the nodes buffer's length is served. */
static void hold_encode_lengths(size_t family, size_t k, size_t len)
{
    const size_t object_len = mogtriz_object_len(family, k, len), nodes_len = mogtriz_nodes_len(family, k, len);
    for (size_t more = 0; more <= 2; more++) {
        const uint8_t wanted = more == 1 ? MOGTRIZ_SERVED : MOGTRIZ_REFUSED_BUFFER_LENGTH;
        EXPECT(mogtriz_encode(family, k, len, long_object, object_len - 1 + more, long_nodes, nodes_len) == wanted);
        EXPECT(mogtriz_encode(family, k, len, long_object, object_len, long_nodes, nodes_len - 1 + more) == wanted);
    }
}

/* Just the object's length is served for both buffers. */
static void hold_interleaving_lengths(size_t family, size_t k, size_t len)
{
    const size_t object_len = mogtriz_object_len(family, k, len);
    for (size_t more = 0; more <= 2; more++) {
        const uint8_t wanted = more == 1 ? MOGTRIZ_SERVED : MOGTRIZ_REFUSED_BUFFER_LENGTH;
        const size_t near_len = object_len - 1 + more;
        EXPECT(mogtriz_interleave(family, k, len, long_object, near_len, other_object, object_len) == wanted);
        EXPECT(mogtriz_interleave(family, k, len, long_object, object_len, other_object, near_len) == wanted);
        EXPECT(mogtriz_deinterleave(family, k, len, long_object, near_len, other_object, object_len) == wanted);
        EXPECT(mogtriz_deinterleave(family, k, len, long_object, object_len, other_object, near_len) == wanted);
    }
}

/* The box's own length, and no byte less, is room for it converted; only boxes of simplex nodes are. */
static void hold_converted_length(size_t family, size_t box_len)
{
    const int simplex = family == MOGTRIZ_SIMPLEX;
    mogtriz_converted converted = mogtriz_from_graded(long_box, box_len, converted_box, box_len);
    EXPECT(converted.refusal == (simplex ? MOGTRIZ_SERVED : MOGTRIZ_REFUSED_FAMILY_UNKNOWN));
    EXPECT(converted.length == (simplex ? box_len : 0));
    converted = mogtriz_to_graded(long_box, box_len, converted_box, box_len - 1);
    EXPECT(converted.refusal == (simplex ? MOGTRIZ_REFUSED_BUFFER_LENGTH : MOGTRIZ_REFUSED_FAMILY_UNKNOWN));
}

/* The length of a box with nodes 1 to `held`, and no byte less, is room for it. */
static void hold_box_length(size_t family, size_t k, size_t len, size_t held)
{
    const size_t nodes_len = mogtriz_nodes_len(family, k, len), box_len = mogtriz_box_len(family, k, len, held);
    uint8_t list[MOGTRIZ_MOST_NODES], room[MOGTRIZ_MOST_NODES];
    for (size_t i = 0; i < held; i++) {
        list[i] = (uint8_t)(i + 1);
    }
    mogtriz_session session = mogtriz_start(family, k, len, list, held).session;
    EXPECT(mogtriz_live_count(session) == held);
    mogtriz_written listed = mogtriz_live_nodes(session, room, held);
    EXPECT(listed.refusal == MOGTRIZ_SERVED && listed.length == held && memcmp(room, list, held) == 0);
    mogtriz_written written = mogtriz_write(session, long_nodes, nodes_len, list, held, long_box, box_len);
    EXPECT(written.refusal == MOGTRIZ_SERVED && written.length == box_len);
    hold_converted_length(family, box_len);
    written = mogtriz_write(session, long_nodes, nodes_len, list, held, long_box, box_len - 1);
    EXPECT(written.refusal == MOGTRIZ_REFUSED_BUFFER_LENGTH);
}

static void hold_lengths(void)
{
    const size_t lengths[] = {1, 2, 255, MOGTRIZ_MOST_LEN};
    for (size_t i = 0; i < FAMILIES; i++) {
        for (size_t k = families[i].least_k; k <= families[i].most_k; k++) {
            const size_t n = mogtriz_node_count(families[i].family, k);
            for (size_t j = 0; j < sizeof lengths / sizeof lengths[0]; j++) {
                hold_encode_lengths(families[i].family, k, lengths[j]);
                hold_interleaving_lengths(families[i].family, k, lengths[j]);
                hold_box_length(families[i].family, k, lengths[j], 0);
                hold_box_length(families[i].family, k, lengths[j], 1);
                hold_box_length(families[i].family, k, lengths[j], n);
            }
        }
    }
}

static void hold_no_length(size_t family, size_t k, size_t len)
{
    EXPECT(mogtriz_object_len(family, k, len) == 0);
    EXPECT(mogtriz_nodes_len(family, k, len) == 0);
    EXPECT(mogtriz_box_len(family, k, len, 0) == 0);
}

/* Numbers out of range have no length, not even where a product would come round to one. */
static void hold_lengths_out_of_range(void)
{
    const size_t half = SIZE_MAX / 2 + 1;
    hold_no_length(0, K, LEN);
    hold_no_length(FAMILIES + 1, K, LEN);
    hold_no_length(SIZE_MAX, K, LEN);
    hold_no_length(MOGTRIZ_SIMPLEX, 1, LEN);
    hold_no_length(MOGTRIZ_SIMPLEX, half, 3);
    hold_no_length(MOGTRIZ_SIMPLEX, SIZE_MAX, LEN);
    hold_no_length(MOGTRIZ_SIMPLEX, K, 0);
    hold_no_length(MOGTRIZ_SIMPLEX, K, MOGTRIZ_MOST_LEN + 1);
    hold_no_length(MOGTRIZ_SIMPLEX, K, half + 1);
    hold_no_length(MOGTRIZ_SIMPLEX, K, SIZE_MAX);
    EXPECT(mogtriz_box_len(MOGTRIZ_SIMPLEX, K, LEN, N) > 0);
    EXPECT(mogtriz_box_len(MOGTRIZ_SIMPLEX, K, LEN, N + 1) == 0);
    EXPECT(mogtriz_box_len(MOGTRIZ_SIMPLEX, K, LEN, half + 1) == 0);
    EXPECT(mogtriz_box_len(MOGTRIZ_SIMPLEX, K, LEN, SIZE_MAX) == 0);
}

/* The data blocks' nodes of the largest simplex code make all others: no plan has more steps. */
static void hold_plan_room(void)
{
    const uint8_t data[] = {1, 2, 4, 8, 16, 32, 64, 128};
    uint8_t steps[MOGTRIZ_PLAN_ROOM];
    const size_t most_steps = MOGTRIZ_MOST_NODES - sizeof data;
    mogtriz_session session = mogtriz_start(MOGTRIZ_SIMPLEX, sizeof data, LEN, data, sizeof data).session;
    EXPECT(mogtriz_plan(session, steps, sizeof steps).steps == most_steps);
    EXPECT(mogtriz_plan(session, steps, MOGTRIZ_STEP_LEN * most_steps).refusal == MOGTRIZ_SERVED);
    EXPECT(mogtriz_plan(session, steps, MOGTRIZ_STEP_LEN * most_steps - 1).refusal == MOGTRIZ_REFUSED_BUFFER_LENGTH);
    EXPECT(MOGTRIZ_PLAN_ROOM == MOGTRIZ_STEP_LEN * MOGTRIZ_MOST_NODES);
}

/* What mogtriz_plan writes is accepted, with no step or with any number of them from its front, and a step more is bad; carried out it
   repairs what a run does. A plan that was made elsewhere can have a round for each step, as many as nodes are missing. */
static void hold_checked_plans(size_t family, size_t k)
{
    uint8_t list[MOGTRIZ_MOST_NODES], steps[MOGTRIZ_PLAN_ROOM + MOGTRIZ_STEP_LEN];
    const size_t n = mogtriz_node_count(family, k), nodes_len = mogtriz_nodes_len(family, k, LEN);
    size_t data = 0;
    for (size_t node = 1; node <= n; node++) {
        const size_t column = mogtriz_column(family, k, node);
        list[data] = (uint8_t)node;
        data += (column & (column - 1)) == 0;
    }
    const mogtriz_session session = mogtriz_start(family, k, LEN, list, data).session;
    const size_t count = mogtriz_plan(session, steps, sizeof steps).steps;
    EXPECT(data == k && count == n - k);
    for (size_t i = 0; i <= count; i++) {
        EXPECT(mogtriz_check_plan(session, steps, MOGTRIZ_STEP_LEN * i).bad_step == 0);
    }
    memcpy(steps + MOGTRIZ_STEP_LEN * count, steps, MOGTRIZ_STEP_LEN);
    EXPECT(mogtriz_check_plan(session, steps, MOGTRIZ_STEP_LEN * (count + 1)).bad_step == count + 1);
    for (size_t i = 0; i < count; i++) {
        steps[MOGTRIZ_STEP_LEN * i] = (uint8_t)(i + 1);
    }
    const mogtriz_carried carried = mogtriz_carry_plan(session, steps, MOGTRIZ_STEP_LEN * count, long_nodes, nodes_len);
    const mogtriz_repairs run = mogtriz_run(session, long_nodes, nodes_len);
    EXPECT(carried.refusal == MOGTRIZ_SERVED && carried.bad_step == 0 && carried.session.steps == count);
    EXPECT(mogtriz_live_count(carried.session) == n && run.left == 0);
    EXPECT(memcmp(carried.session.reads, run.session.reads, sizeof run.session.reads) == 0);
}

static void hold_all_checked_plans(void)
{
    for (size_t i = 0; i < FAMILIES; i++) {
        for (size_t k = families[i].least_k; k <= families[i].most_k; k++) {
            hold_checked_plans(families[i].family, k);
        }
    }
}

static size_t most_pairs(size_t family, size_t k)
{
    switch (family) {
    case MOGTRIZ_SIMPLEX:
        return (mogtriz_node_count(family, k) - 1) / 2;
    case MOGTRIZ_WEIGHT_TWO:
        return k - 1;
    default:
        return 6;
    }
}

/* With all nodes live every node has as many pairs; with node n lost those that it was in are gone, and its own are not. */
static void hold_pairs(size_t family, size_t k)
{
    uint8_t list[MOGTRIZ_MOST_NODES];
    const size_t n = mogtriz_node_count(family, k), most = most_pairs(family, k);
    for (size_t i = 0; i < n; i++) {
        list[i] = (uint8_t)(i + 1);
    }
    mogtriz_session session = mogtriz_start(family, k, LEN, list, n).session;
    for (size_t node = 1; node <= n; node++) {
        EXPECT(mogtriz_pairs(session, node).count == most);
    }
    session.live[n] = 0;
    size_t lost = 0;
    for (size_t node = 1; node <= n; node++) {
        const mogtriz_pairs_found found = mogtriz_pairs(session, node);
        EXPECT(found.count <= most && (found.count == 0) == (found.smaller == 0));
        EXPECT(found.count == 0 || mogtriz_related(family, k, node, found.smaller, found.larger) == 1);
        lost += most - found.count;
    }
    /* where n is related to a and b, a has lost the pair of b and n, and b that of a and n */
    EXPECT(mogtriz_pairs(session, n).count == most && lost == 2 * most);
}

static void hold_all_pairs(void)
{
    for (size_t i = 0; i < FAMILIES; i++) {
        for (size_t k = families[i].least_k; k <= families[i].most_k; k++) {
            hold_pairs(families[i].family, k);
        }
    }
}

/* A mark for 0, and one that is neither 0 nor 1, is no live node. */
static void hold_live_count(void)
{
    mogtriz_session session = three_live();
    EXPECT(mogtriz_live_count(session) == 3);
    session.live[0] = 1;
    session.live[6] = 2;
    EXPECT(mogtriz_live_count(session) == 3);
    session.live[255] = 1;
    EXPECT(mogtriz_live_count(session) == 4);
}

/* What a plan answers with nodes 1 to `live` live, and in so many steps so many reads of a node. */
static uint8_t plan_refusal(size_t live, size_t steps, size_t node, uint16_t reads)
{
    uint8_t room[MOGTRIZ_PLAN_ROOM];
    mogtriz_session session = mogtriz_start(MOGTRIZ_SIMPLEX, K, LEN, all_nodes, live).session;
    session.steps = steps;
    session.reads[node] = reads;
    return mogtriz_plan(session, room, sizeof room).refusal;
}

/* The conditions of 13 that counts meet, each alone, and the sessions beside them, which are taken. */
static void hold_counts(void)
{
    const size_t half = SIZE_MAX / 2 + 1;
    EXPECT(plan_refusal(N, 0, 1, 0) == MOGTRIZ_SERVED);
    EXPECT(plan_refusal(N, 1, 1, 2) == MOGTRIZ_SERVED);
    EXPECT(plan_refusal(N, 1, 1, 1) == MOGTRIZ_REFUSED_NO_SUCH_SESSION);
    EXPECT(plan_refusal(N, 1, 1, 3) == MOGTRIZ_REFUSED_NO_SUCH_SESSION);
    EXPECT(plan_refusal(N, half, 1, 0) == MOGTRIZ_REFUSED_NO_SUCH_SESSION);
    EXPECT(plan_refusal(N, half + 1, 1, 2) == MOGTRIZ_REFUSED_NO_SUCH_SESSION);
    EXPECT(plan_refusal(N, SIZE_MAX, 1, UINT16_MAX) == MOGTRIZ_REFUSED_NO_SUCH_SESSION);
    EXPECT(plan_refusal(N, 1, 0, 2) == MOGTRIZ_REFUSED_NO_SUCH_SESSION);
    EXPECT(plan_refusal(N, 1, N, 2) == MOGTRIZ_SERVED);
    EXPECT(plan_refusal(N, 1, N + 1, 2) == MOGTRIZ_REFUSED_NO_SUCH_SESSION);
    for (size_t live = 0; live <= N; live++) {
        EXPECT(plan_refusal(live, live, 1, (uint16_t)(2 * live)) == MOGTRIZ_SERVED);
        EXPECT(plan_refusal(live, live + 1, 1, (uint16_t)(2 * live + 2)) == MOGTRIZ_REFUSED_NO_SUCH_SESSION);
    }
}

/* The most that a count can be. */
static void hold_most_reads(void)
{
    uint8_t list[MOGTRIZ_MOST_NODES];
    for (size_t i = 0; i < sizeof list; i++) {
        list[i] = (uint8_t)(i + 1);
    }
    mogtriz_session session = mogtriz_start(MOGTRIZ_SIMPLEX, MOGTRIZ_SIMPLEX_MOST_K, LEN, list, sizeof list).session;
    session.steps = MOGTRIZ_MOST_NODES;
    session.reads[1] = 510;
    EXPECT(mogtriz_plan(session, NULL, 0).refusal == MOGTRIZ_SERVED);
    session.steps++;
    session.reads[1] = 512;
    EXPECT(mogtriz_plan(session, NULL, 0).refusal == MOGTRIZ_REFUSED_NO_SUCH_SESSION);
}

/* Nodes that are lost after repairs: a mark set to 0 adds one to the sum of steps and missing nodes, and once that is above n the
   session is turned away. A start with the nodes still live begins again. */
static void hold_lost_later(void)
{
    uint8_t nodes[N * LEN], list[N];
    memcpy(nodes, three_nodes, sizeof nodes);
    mogtriz_repairs run = mogtriz_run(three_live(), nodes, sizeof nodes);
    EXPECT(run.refusal == MOGTRIZ_SERVED && run.session.steps == 4);
    size_t lost = 0;
    for (; lost < N - 4; lost++) {
        run.session.live[N - lost] = 0;
        EXPECT(mogtriz_live_nodes(run.session, list, sizeof list).length == N - 1 - lost);
    }
    run.session.live[N - lost] = 0;
    EXPECT(mogtriz_live_nodes(run.session, list, sizeof list).refusal == MOGTRIZ_REFUSED_NO_SUCH_SESSION);
    EXPECT(mogtriz_live_count(run.session) == 3);
    mogtriz_started again = mogtriz_start(MOGTRIZ_SIMPLEX, K, LEN, all_nodes, 3);
    EXPECT(again.refusal == MOGTRIZ_SERVED && again.session.steps == 0);
    EXPECT(memcmp(again.session.live, run.session.live, sizeof again.session.live) == 0);
}

static const char *texts[] = {
#define TEXT(number, name, text) text,
    MOGTRIZ_REFUSALS(TEXT)
};

static const int numbers[] = {
#define NUMBER(number, name, text) name,
    MOGTRIZ_REFUSALS(NUMBER)
};

enum { REFUSALS = sizeof texts / sizeof texts[0] };

/* The numbers go up by one from 1, each with its own text, and any other number has a text too. */
static void hold_texts(void)
{
    const size_t others[] = {REFUSALS + 1, 255, 256 + 1, SIZE_MAX};
    char digits[32];
    snprintf(digits, sizeof digits, " %d", MOGTRIZ_MOST_LEN);
    EXPECT(strstr(mogtriz_refusal_text(MOGTRIZ_REFUSED_LEN_OUT_OF_RANGE), digits) != NULL);
    for (int i = 0; i < REFUSALS; i++) {
        EXPECT(numbers[i] == i + 1);
        EXPECT(strcmp(mogtriz_refusal_text((size_t)numbers[i]), texts[i]) == 0);
        for (int j = 0; j < i; j++) {
            EXPECT(strcmp(texts[i], texts[j]) != 0);
        }
    }
    EXPECT(strcmp(mogtriz_refusal_text(MOGTRIZ_SERVED), "served") == 0);
    for (size_t i = 0; i < sizeof others / sizeof others[0]; i++) {
        EXPECT(strcmp(mogtriz_refusal_text(others[i]), "a reason that has no name in this header") == 0);
    }
}

/* The header's formula for a pair's node in weight-two. */
static size_t pair_node(size_t k, size_t i, size_t j)
{
    return k + (i - 1) * (2 * k - i) / 2 + (j - i);
}

static void hold_columns(void)
{
    for (size_t k = MOGTRIZ_WEIGHT_TWO_LEAST_K; k <= MOGTRIZ_WEIGHT_TWO_MOST_K; k++) {
        for (size_t i = 1; i <= k; i++) {
            EXPECT(mogtriz_column(MOGTRIZ_WEIGHT_TWO, k, i) == (size_t)1 << (i - 1));
            for (size_t j = i + 1; j <= k; j++) {
                const size_t column = (size_t)1 << (i - 1) | (size_t)1 << (j - 1);
                EXPECT(mogtriz_column(MOGTRIZ_WEIGHT_TWO, k, pair_node(k, i, j)) == column);
            }
        }
    }
    for (size_t node = 1; node <= MOGTRIZ_MOST_NODES; node++) {
        EXPECT(mogtriz_column(MOGTRIZ_SIMPLEX, MOGTRIZ_SIMPLEX_MOST_K, node) == node);
    }
}

static void print_tetrahedron(void)
{
    printf("the columns of nodes 1 to 14 are");
    for (size_t node = 1; node <= 14; node++) {
        printf(" %d", (int)mogtriz_column(MOGTRIZ_TETRAHEDRON, 4, node));
    }
    printf("\n");
}

/* Six letters, as interleaving puts them. */
static void print_interleaving(void)
{
    const char letters[] = "abcdef";
    uint8_t in[6], out[6] = {0};
    memcpy(in, letters, sizeof in);
    EXPECT(mogtriz_interleave(MOGTRIZ_SIMPLEX, K, 2, in, sizeof in, out, sizeof out) == MOGTRIZ_SERVED);
    printf("With k %d and len 2, %s becomes ", K, letters);
    for (size_t place = 0; place < sizeof out; place++) {
        putchar(out[place]);
    }
    printf(".\n");
}

/* The node at a position of graded order, out of a box that holds it alone. */
static uint8_t node_at(uint8_t k, uint8_t position)
{
    const uint8_t box[] = {MOGTRIZ_SIMPLEX, k, LEN, 0, 1, 0, 0, 0, position, 0x5a};
    uint8_t out[sizeof box] = {0};
    EXPECT(mogtriz_from_graded(box, sizeof box, out, sizeof out).length == sizeof box);
    return out[MOGTRIZ_BOX_HEAD];
}

static void print_graded_order(void)
{
    printf("With k %d the nodes at positions 1 to %d are", K, N);
    for (uint8_t position = 1; position <= N; position++) {
        printf(" %d", node_at(K, position));
    }
    printf(";\n");
}

int main(void)
{
    hold_families();
    hold_limits();
    hold_lengths();
    hold_lengths_out_of_range();
    hold_plan_room();
    hold_all_checked_plans();
    hold_all_pairs();
    hold_live_count();
    hold_counts();
    hold_most_reads();
    hold_lost_later();
    hold_texts();
    hold_columns();
    print_tetrahedron();
    print_interleaving();
    print_graded_order();
    return wrong == 0 ? 0 : 1;
}
