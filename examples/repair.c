/*
 * An object is stored as a box that keeps three of its seven nodes; the others are planned and repaired, the reads that this took and
 * the pairs of one of the nodes are printed, and all seven are put away and the object read out. It is C99 and C++ alike.
 * Where the library is installed:
 *
 *   cc -std=c99 repair.c $(pkg-config --cflags --libs mogtriz) -o repair && ./repair
 */
#include <mogtriz.h>

#include <stdio.h>
#include <stdlib.h>
#include <string.h>

enum { K = 3, LEN = 8 };

typedef struct {
    uint8_t *bytes;
    size_t length;
} buffer;

static void give_up(const char *reason)
{
    fprintf(stderr, "%s\n", reason);
    exit(1);
}

/* An answer's number is looked at before anything else of it. */
static void expect_served(const char *call, uint8_t refusal)
{
    if (refusal == MOGTRIZ_SERVED) {
        return;
    }
    fprintf(stderr, "%s: refused %d\n", call, refusal);
    give_up(mogtriz_refusal_text(refusal));
}

/* A buffer of zeros. The header's functions give the length, and 0 for numbers that are out of range. */
static buffer make_buffer(size_t length)
{
    buffer made = {NULL, length};
    if (length == 0) {
        give_up("no such family, k or block length");
    }
    made.bytes = (uint8_t *)calloc(length, 1);
    if (made.bytes == NULL) {
        give_up("no memory");
    }
    return made;
}

/* The box of nodes 4, 5 and 7 of an object; the other nodes are lost. */
static buffer store(const uint8_t *object, size_t object_len)
{
    const uint8_t kept[] = {4, 5, 7};
    buffer nodes = make_buffer(mogtriz_nodes_len(MOGTRIZ_SIMPLEX, K, LEN));
    buffer box = make_buffer(mogtriz_box_len(MOGTRIZ_SIMPLEX, K, LEN, sizeof kept));

    expect_served("encode", mogtriz_encode(MOGTRIZ_SIMPLEX, K, LEN, object, object_len, nodes.bytes, nodes.length));
    printf("encoded %zu bytes into %zu nodes\n", object_len, nodes.length / LEN);

    mogtriz_started started = mogtriz_start(MOGTRIZ_SIMPLEX, K, LEN, kept, sizeof kept);
    expect_served("start", started.refusal);
    mogtriz_written written =
        mogtriz_write(started.session, nodes.bytes, nodes.length, kept, sizeof kept, box.bytes, box.length);
    expect_served("write", written.refusal);
    printf("wrote a box of %zu bytes\n", written.length);
    free(nodes.bytes);
    return box;
}

/* A box says how long a nodes buffer it needs: it is checked first, and then read into one. */
static mogtriz_session read_box(buffer box, buffer *nodes)
{
    mogtriz_started checked = mogtriz_check(box.bytes, box.length);
    expect_served("check", checked.refusal);
    *nodes = make_buffer(mogtriz_nodes_len(checked.session.family, checked.session.k, checked.session.len));
    mogtriz_started started = mogtriz_read(box.bytes, box.length, nodes->bytes, nodes->length);
    expect_served("read", started.refusal);
    printf("read a box of %zu nodes\n", mogtriz_live_count(started.session));
    return started.session;
}

static void print_plan(mogtriz_session session)
{
    uint8_t steps[MOGTRIZ_PLAN_ROOM];
    mogtriz_repairs plan = mogtriz_plan(session, steps, sizeof steps);
    expect_served("plan", plan.refusal);
    for (size_t i = 0; i < plan.steps; i++) {
        const uint8_t *step = steps + MOGTRIZ_STEP_LEN * i;
        printf("round %d: node %d from %d and %d\n", step[0], step[1], step[2], step[3]);
    }
}

/* A run gives the next session, in which the repaired nodes are live. */
static mogtriz_session repair(mogtriz_session session, buffer nodes)
{
    mogtriz_repairs run = mogtriz_run(session, nodes.bytes, nodes.length);
    expect_served("run", run.refusal);
    printf("%zu repaired in %zu rounds, %zu left\n", run.steps, run.rounds, run.left);
    return run.session;
}

/* The session counts how often each node's block was read by steps, those of a run included. */
static void print_reads(mogtriz_session session)
{
    const char *before = "";
    printf("reads in %zu steps:", session.steps);
    for (size_t node = 1; node <= MOGTRIZ_MOST_NODES; node++) {
        if (session.reads[node] > 0) {
            printf("%s %d of node %zu", before, session.reads[node], node);
            before = ",";
        }
    }
    printf("\n");
}

/* A node that is much asked for can be read as the XOR of a pair's blocks, while its own drive rests. */
static void print_pairs(mogtriz_session session, size_t node)
{
    mogtriz_pairs_found found = mogtriz_pairs(session, node);
    expect_served("pairs", found.refusal);
    printf("node %zu can be read through %zu pairs, the least %zu and %zu\n", node, found.count, found.smaller, found.larger);
}

/* The box of every live node: all of them are named, as an empty list would give an empty box. */
static void put_away(mogtriz_session session, buffer nodes)
{
    uint8_t list[MOGTRIZ_MOST_NODES];
    mogtriz_written listed = mogtriz_live_nodes(session, list, sizeof list);
    expect_served("live nodes", listed.refusal);
    buffer box = make_buffer(mogtriz_box_len(session.family, session.k, session.len, listed.length));
    mogtriz_written written =
        mogtriz_write(session, nodes.bytes, nodes.length, list, listed.length, box.bytes, box.length);
    expect_served("write", written.refusal);
    printf("put away a box of %zu nodes, %zu bytes\n", listed.length, written.length);
    free(box.bytes);
}

static buffer read_out(mogtriz_session session, buffer nodes)
{
    buffer object = make_buffer(mogtriz_object_len(session.family, session.k, session.len));
    mogtriz_read_out_answer out = mogtriz_read_out(session, nodes.bytes, nodes.length, object.bytes, object.length);
    /* where more nodes are lost than can be repaired */
    if (out.refusal == MOGTRIZ_REFUSED_BLOCK_MISSING) {
        fprintf(stderr, "data block %zu is lost\n", out.block);
    }
    expect_served("read out", out.refusal);
    printf("read out: %.*s\n", (int)object.length, (const char *)object.bytes);
    return object;
}

int main(void)
{
    const char text[] = "vowels of one disc, 1952";
    const uint8_t *object = (const uint8_t *)text;
    const size_t object_len = strlen(text);
    buffer nodes;

    buffer box = store(object, object_len);
    mogtriz_session session = read_box(box, &nodes);
    print_plan(session);
    session = repair(session, nodes);
    print_reads(session);
    print_pairs(session, 7);
    put_away(session, nodes);
    buffer again = read_out(session, nodes);
    int same = again.length == object_len && memcmp(again.bytes, object, object_len) == 0;

    mogtriz_stepped stepped = mogtriz_step(session, nodes.bytes, nodes.length, 6, 1, 7);
    printf("a step to node 6: refused %d: %s\n", stepped.refusal, mogtriz_refusal_text(stepped.refusal));

    free(box.bytes);
    free(nodes.bytes);
    free(again.bytes);
    return same ? 0 : 1;
}
