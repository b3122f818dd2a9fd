/*
 * The stack that each call touches, with its arguments and its answer: the stack is painted before a call, and the lowest byte that
 * is no longer paint is looked for after it. It prints the most of many calls, served and turned away, and fails where one
 * needs more than MOGTRIZ_MOST_STACK. Linked with `-z now`, as a memcpy that is bound at its first call would count the loader too.
 */
#define _XOPEN_SOURCE 700
#include "mogtriz.h"

#include <stdio.h>
#include <stdlib.h>
#include <string.h>
#include <ucontext.h>

enum { STACK = 1 << 16, PAINT = 0xa5 };

static uint8_t stack[STACK];

/* What the calls get. */
static mogtriz_session session;
static uint8_t list[MOGTRIZ_MOST_NODES], plan[MOGTRIZ_PLAN_ROOM], steps[MOGTRIZ_PLAN_ROOM];
static uint8_t object[MOGTRIZ_MOST_OBJECT_LEN], nodes[MOGTRIZ_MOST_NODES_LEN], box[MOGTRIZ_MOST_BOX_LEN], out[MOGTRIZ_MOST_BOX_LEN];
static size_t list_len, steps_len, object_len, nodes_len, box_len, room;

/* What a call gave: nobody looks at it, and no compiler may leave it out. */
static volatile size_t given;

static void version(void)
{
    given = mogtriz_version();
}

static void node_count(void)
{
    given = mogtriz_node_count(session.family, session.k);
}

static void column(void)
{
    given = mogtriz_column(session.family, session.k, list[0]);
}

static void node_of_column(void)
{
    given = mogtriz_node_of_column(session.family, session.k, 3);
}

static void related(void)
{
    given = mogtriz_related(session.family, session.k, 1, 2, 3);
}

static void encode(void)
{
    given = mogtriz_encode(session.family, session.k, session.len, object, object_len, nodes, nodes_len);
}

static void interleave(void)
{
    given = mogtriz_interleave(session.family, session.k, session.len, object, object_len, out, object_len);
}

static void deinterleave(void)
{
    given = mogtriz_deinterleave(session.family, session.k, session.len, object, object_len, out, object_len);
}

static void start(void)
{
    given = mogtriz_start(session.family, session.k, session.len, list, list_len).refusal;
}

static void check(void)
{
    given = mogtriz_check(box, box_len).refusal;
}

static void read_box(void)
{
    given = mogtriz_read(box, box_len, nodes, nodes_len).refusal;
}

static void body(void)
{
    given = mogtriz_body(box, box_len, list[0]).refusal;
}

static void from_graded(void)
{
    given = mogtriz_from_graded(box, box_len, out, sizeof out).refusal;
}

static void to_graded(void)
{
    given = mogtriz_to_graded(box, box_len, out, sizeof out).refusal;
}

static void write_box(void)
{
    given = mogtriz_write(session, nodes, nodes_len, list, list_len, out, sizeof out).refusal;
}

static void live_nodes(void)
{
    given = mogtriz_live_nodes(session, plan, room).refusal;
}

static void read_out(void)
{
    given = mogtriz_read_out(session, nodes, nodes_len, object, object_len).refusal;
}

static void pairs(void)
{
    given = mogtriz_pairs(session, 3).refusal;
}

static void step(void)
{
    given = mogtriz_step(session, nodes, nodes_len, 3, 1, 2).refusal;
}

static void make_plan(void)
{
    given = mogtriz_plan(session, plan, sizeof plan).refusal;
}

static void run(void)
{
    given = mogtriz_run(session, nodes, nodes_len).refusal;
}

static void check_plan(void)
{
    given = mogtriz_check_plan(session, steps, steps_len).bad_step;
}

static void carry_plan(void)
{
    given = mogtriz_carry_plan(session, steps, steps_len, nodes, nodes_len).bad_step;
}

static struct {
    const char *name;
    void (*call)(void);
    size_t most;
} calls[] = {
    {"version", version, 0},         {"node_count", node_count, 0}, {"column", column, 0},         {"node_of_column", node_of_column, 0},
    {"related", related, 0},         {"encode", encode, 0},         {"interleave", interleave, 0}, {"deinterleave", deinterleave, 0},
    {"start", start, 0},             {"check", check, 0},           {"read", read_box, 0},         {"body", body, 0},
    {"from_graded", from_graded, 0}, {"to_graded", to_graded, 0},   {"write", write_box, 0},       {"live_nodes", live_nodes, 0},
    {"read_out", read_out, 0},       {"pairs", pairs, 0},           {"step", step, 0},             {"plan", make_plan, 0},
    {"run", run, 0},                 {"check_plan", check_plan, 0}, {"carry_plan", carry_plan, 0},
};

enum { CALLS = sizeof calls / sizeof calls[0] };

static ucontext_t measuring, measured;
static void (*measured_call)(void);

static void make_measured_call(void)
{
    measured_call();
}

/* Makes the call on the painted stack. */
static void switch_stacks(void (*call)(void))
{
    measured_call = call;
    if (getcontext(&measured) != 0) {
        abort();
    }
    measured.uc_stack.ss_sp = stack;
    measured.uc_stack.ss_size = sizeof stack;
    measured.uc_link = &measuring;
    makecontext(&measured, make_measured_call, 0);
    if (swapcontext(&measuring, &measured) != 0) {
        abort();
    }
}

/* How many bytes of stack the call touches, from the top down to the lowest. */
static size_t touched_by(void (*call)(void))
{
    size_t untouched = 0;
    memset(stack, PAINT, sizeof stack);
    switch_stacks(call);
    while (untouched < sizeof stack && stack[untouched] == PAINT) {
        untouched++;
    }
    return sizeof stack - untouched;
}

static void measure_all(void)
{
    for (size_t i = 0; i < CALLS; i++) {
        size_t touched = touched_by(calls[i].call);
        calls[i].most = touched > calls[i].most ? touched : calls[i].most;
    }
}

/*
 * Every call on a session with the listed nodes live, a plan that is handed in being the session's own, and then one whose last step is
 * bad; then with buffers that are a byte short, and then with counts that do not agree.
 */
static void measure_live(size_t family, size_t k, size_t len)
{
    session = mogtriz_start(family, k, len, list, list_len).session;
    object_len = mogtriz_object_len(family, k, len);
    nodes_len = mogtriz_nodes_len(family, k, len);
    box_len = mogtriz_write(session, nodes, nodes_len, list, list_len, box, sizeof box).length;
    room = list_len;
    steps_len = MOGTRIZ_STEP_LEN * mogtriz_plan(session, steps, sizeof steps).steps;
    measure_all();
    steps[steps_len > 0 ? steps_len - 1 : 0] = 0;
    measure_all();
    steps_len -= steps_len > 0;
    room -= room > 0;
    object_len -= object_len > 0;
    nodes_len -= nodes_len > 0;
    box_len -= box_len > 0;
    measure_all();
    session.steps = 1;
    measure_all();
}

/* The data blocks' nodes, which a run makes all others of; every other node; all; none. */
static void measure_code(size_t family, size_t k, size_t len)
{
    size_t n = mogtriz_node_count(family, k);
    list_len = 0;
    measure_live(family, k, len);
    for (size_t node = 1; node <= n; node++) {
        size_t its_column = mogtriz_column(family, k, node);
        if ((its_column & (its_column - 1)) == 0) {
            list[list_len++] = (uint8_t)node;
        }
    }
    measure_live(family, k, len);
    for (size_t apart = 1; apart <= 2; apart++) {
        list_len = 0;
        for (size_t node = 1; node <= n; node += apart) {
            list[list_len++] = (uint8_t)node;
        }
        measure_live(family, k, len);
    }
}

int main(void)
{
    const size_t lengths[] = {1, 64, MOGTRIZ_MOST_LEN};
    size_t most = 0;
    for (size_t i = 0; i < sizeof lengths / sizeof lengths[0]; i++) {
        for (size_t family = 1; family <= 4; family++) {
            for (size_t k = 1; k <= MOGTRIZ_MOST_K + 1; k++) {
                measure_code(family, k, lengths[i]);
            }
        }
    }
    for (size_t i = 0; i < CALLS; i++) {
        printf("%s %zu\n", calls[i].name, calls[i].most);
        most = calls[i].most > most ? calls[i].most : most;
    }
    if (most > MOGTRIZ_MOST_STACK) {
        fprintf(stderr, "a call touched %zu bytes of stack, the header says %d\n", most, MOGTRIZ_MOST_STACK);
        return 1;
    }
    return 0;
}
