/*
 * A plan that was made elsewhere: the steps of a planner of one's own are checked, the first bad one is told, and once they are put right
 * they are carried out and the object is read out. It is C99 and C++ alike. Where the library is installed:
 *
 *   cc -std=c99 carry.c $(pkg-config --cflags --libs mogtriz) -o carry && ./carry
 */
#include <mogtriz.h>

#include <stdio.h>
#include <stdlib.h>
#include <string.h>

enum { K = 3, LEN = 8, N = 7, STEPS = 4 };

/* An answer's number is looked at before anything else of it. */
static void expect_served(const char *call, uint8_t refusal)
{
    if (refusal == MOGTRIZ_SERVED) {
        return;
    }
    fprintf(stderr, "%s: refused %d: %s\n", call, refusal, mogtriz_refusal_text(refusal));
    exit(1);
}

/* Nodes 4, 5 and 7 of an object; the others are lost. */
static mogtriz_session lose_nodes(const uint8_t *object, size_t object_len, uint8_t *nodes, size_t nodes_len)
{
    const uint8_t kept[] = {4, 5, 7};
    expect_served("encode", mogtriz_encode(MOGTRIZ_SIMPLEX, K, LEN, object, object_len, nodes, nodes_len));
    mogtriz_started started = mogtriz_start(MOGTRIZ_SIMPLEX, K, LEN, kept, sizeof kept);
    expect_served("start", started.refusal);
    for (size_t node = 1; node <= N; node++) {
        if (started.session.live[node] == 0) {
            memset(nodes + (node - 1) * LEN, 0, LEN);
        }
    }
    return started.session;
}

/* A step that is bad is no refusal: its number is looked at too, and is 0 where the plan is accepted. */
static int is_accepted(mogtriz_session session, const uint8_t *plan, size_t plan_len)
{
    mogtriz_plan_checked checked = mogtriz_check_plan(session, plan, plan_len);
    expect_served("check plan", checked.refusal);
    if (checked.bad_step == 0) {
        printf("accepted, %zu steps\n", plan_len / MOGTRIZ_STEP_LEN);
        return 1;
    }
    const uint8_t *step = plan + MOGTRIZ_STEP_LEN * (checked.bad_step - 1);
    printf("step %zu is bad: in round %d node %d from %d and %d\n", checked.bad_step, step[0], step[1], step[2], step[3]);
    return 0;
}

int main(void)
{
    const char text[] = "vowels of one disc, 1952";
    uint8_t nodes[N * LEN], again[K * LEN];
    mogtriz_session session = lose_nodes((const uint8_t *)text, strlen(text), nodes, sizeof nodes);

    /* round, node, smaller, larger: node 4 is read twice in round 1 */
    uint8_t plan[STEPS * MOGTRIZ_STEP_LEN] = {1, 3, 4, 7, 1, 1, 4, 5, 2, 6, 1, 7, 3, 2, 1, 3};
    if (!is_accepted(session, plan, sizeof plan)) {
        /* a round for each step, as a drive serves one request a round */
        for (size_t i = 0; i < STEPS; i++) {
            plan[MOGTRIZ_STEP_LEN * i] = (uint8_t)(i + 1);
        }
    }
    is_accepted(session, plan, sizeof plan);

    /* it is checked here too, and nothing is written where a step is bad */
    mogtriz_carried carried = mogtriz_carry_plan(session, plan, sizeof plan, nodes, sizeof nodes);
    expect_served("carry plan", carried.refusal);
    if (carried.bad_step > 0) {
        fprintf(stderr, "step %zu is bad\n", carried.bad_step);
        return 1;
    }
    session = carried.session;
    printf("carried out: %zu steps, %zu of %d nodes live\n", session.steps, mogtriz_live_count(session), N);

    expect_served("read out", mogtriz_read_out(session, nodes, sizeof nodes, again, sizeof again).refusal);
    printf("read out: %.*s\n", (int)sizeof again, (const char *)again);
    /* its nodes are live now */
    is_accepted(session, plan, sizeof plan);
    return memcmp(again, text, sizeof again) == 0 ? 0 : 1;
}
