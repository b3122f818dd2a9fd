/*
 * Mogtriz: data blocks spread over nodes, each node the bytewise XOR of some of them. For C99 and C++11, and what came after.
 *
 * An object is k data blocks of `len` bytes, block 1 first. Nodes have numbers 1 to n; node j's block is the part of
 * the nodes buffer from (j - 1) * len up to j * len. A node's column is a number of k bits: bit i - 1 is set when data
 * block i is in that node.
 *
 * Which node has which column:
 *   simplex      node j has column j
 *   weight-two   node i, from 1 to k, is data block i; then come the pairs of data blocks i < j, by i and then by j: the node of
 *                the pair is k + (i - 1)(2k - i) / 2 + (j - i). With k 3, nodes 4, 5 and 6 are the pairs 1 2, 1 3 and 2 3
 *   tetrahedron  the columns of nodes 1 to 14 are 1 2 4 8 5 3 6 7 10 12 14 9 11 13
 * Data block i alone is the node with column 1 << (i - 1): in simplex node 2^(i - 1), in the two others node i.
 *
 * The caller chooses family, k and len, and cuts what it stores into objects of exactly k * len bytes. It pads the last one and keeps
 * the true length: neither nodes nor boxes have a place for it. So many nodes may be lost, whichever they are, and all come back:
 * 2^(k - 1) - 1 in simplex, k - 1 in weight-two, 6 in the tetrahedron. These three are tested and not proved.
 *
 * Every number is taken as it comes: one that is out of range is refused, however large, and never cut.
 *
 * Buffers. Each pointer has to be to as many bytes as its length says, at any alignment. With a length of 0 it may be null: that is
 * an empty buffer. Null with a length above 0 is the caller's fault, and so is a buffer that is written and overlaps another of the
 * call: nothing that is said here holds then. Such a call can answer 0 and leave wrong bytes, as encode does in simplex where the
 * object lies at the front of the nodes buffer. Where a program defines MOGTRIZ_CHECK_BUFFERS before it includes this header, `assert`
 * ends it at both faults, unless NDEBUG is defined too.
 *
 * Addresses and symbols. A call by name goes through a function in this header, which sees to empty buffers. A name with no bracket
 * after it, as in `&mogtriz_run`, is the library's own function, and so is the symbol for another language: these take no null
 * pointer, not even with a length of 0.
 *
 * No call allocates, and none keeps anything once it has ended: threads may make calls at once, as long as what one of them writes is
 * in no buffer of another.
 */
#ifndef MOGTRIZ_H
#define MOGTRIZ_H

#include <stddef.h>
#include <stdint.h>

#ifdef MOGTRIZ_CHECK_BUFFERS
#include <assert.h>
#endif

/*
 * The version of this header, raised when a layout or an answer changes. Where the library's is another, what it takes and gives
 * may be other than what is said here.
 */
#define MOGTRIZ_VERSION 6

/* The families, with the range of k and n. */
#define MOGTRIZ_SIMPLEX 1 /* n is 2^k - 1 */
#define MOGTRIZ_SIMPLEX_LEAST_K 2
#define MOGTRIZ_SIMPLEX_MOST_K 8
#define MOGTRIZ_WEIGHT_TWO 2 /* n is k(k + 1) / 2 */
#define MOGTRIZ_WEIGHT_TWO_LEAST_K 2
#define MOGTRIZ_WEIGHT_TWO_MOST_K 22
#define MOGTRIZ_TETRAHEDRON 3 /* n is 14 */
#define MOGTRIZ_TETRAHEDRON_LEAST_K 4
#define MOGTRIZ_TETRAHEDRON_MOST_K 4

/* The most that len, and over all families k and n, can be; the least len is 1. No list of nodes that is made or accepted is longer than that n. */
#define MOGTRIZ_MOST_LEN 1536
#define MOGTRIZ_MOST_K MOGTRIZ_WEIGHT_TWO_MOST_K
#define MOGTRIZ_MOST_NODES 255

/* Bytes of a box before its node numbers, and of a step in a plan. */
#define MOGTRIZ_BOX_HEAD 8
#define MOGTRIZ_STEP_LEN 4

/* Room in bytes for any plan; for any object, nodes buffer and box. For one family, k and len see mogtriz_nodes_len and the like. */
#define MOGTRIZ_PLAN_ROOM (MOGTRIZ_STEP_LEN * MOGTRIZ_MOST_NODES)
#define MOGTRIZ_MOST_OBJECT_LEN (MOGTRIZ_MOST_K * MOGTRIZ_MOST_LEN)
#define MOGTRIZ_MOST_NODES_LEN (MOGTRIZ_MOST_NODES * MOGTRIZ_MOST_LEN)
#define MOGTRIZ_MOST_BOX_LEN (MOGTRIZ_BOX_HEAD + MOGTRIZ_MOST_NODES + MOGTRIZ_MOST_NODES_LEN)

/*
 * Bytes of stack that are enough for any call, with its arguments and its answer. Measured on x86-64 and not proved: a run, called by
 * a program compiled without optimisation, touched 15688, and no other call as many. What a loader needs to bind memcpy and memset
 * at their first call, what a sanitizer adds, and what the system keeps in a thread's stack come on top: with glibc a start and a run
 * in one function did not fit in a thread's stack of 20480 bytes, and did in one of 24576.
 */
#define MOGTRIZ_MOST_STACK 20480

/*
 * Why a call is turned away: ROW(number, name, text) for each reason. A call gives the first that is met in the order of its checks,
 * as said beside it, and writes nothing then. 1 to 10 are due to what is handed in, 11 to 14 to what the session or the box says. The
 * names are constants, and so is MOGTRIZ_SERVED, 0, which is no refusal.
 */
#define MOGTRIZ_REFUSALS(ROW)                                                                                                 \
    ROW(1, MOGTRIZ_REFUSED_FAMILY_UNKNOWN, "the family is not one that the call takes")                                       \
    ROW(2, MOGTRIZ_REFUSED_K_OUT_OF_RANGE, "k is outside its family's range")                                                 \
    ROW(3, MOGTRIZ_REFUSED_LEN_OUT_OF_RANGE, "the block length is 0 or above " MOGTRIZ_DIGITS(MOGTRIZ_MOST_LEN))              \
    ROW(4, MOGTRIZ_REFUSED_NO_SUCH_NODE, "a node number is 0 or above the last node's")                                       \
    ROW(5, MOGTRIZ_REFUSED_NOT_RISING, "a list of nodes does not strictly rise")                                              \
    ROW(6, MOGTRIZ_REFUSED_BUFFER_LENGTH, "a buffer is not of the length that the call needs")                                \
    ROW(7, MOGTRIZ_REFUSED_BOX_LENGTH,                                                                                        \
        "the box is under " MOGTRIZ_DIGITS(MOGTRIZ_BOX_HEAD) " bytes or not as long as its contents say")                     \
    ROW(8, MOGTRIZ_REFUSED_NOT_ZERO, "a byte of 5 to 7 of the box is not zero")                                               \
    ROW(9, MOGTRIZ_REFUSED_TOO_MANY_NODES, "the box counts more nodes than there are")                                        \
    ROW(10, MOGTRIZ_REFUSED_NOT_RELATED, "the three nodes of the step are not related")                                       \
    ROW(11, MOGTRIZ_REFUSED_ALREADY_LIVE, "the node to repair is live")                                                       \
    ROW(12, MOGTRIZ_REFUSED_NODE_MISSING, "a node to be read is missing")                                                     \
    ROW(13, MOGTRIZ_REFUSED_NO_SUCH_SESSION, "the session's contents are out of range or do not agree")                       \
    ROW(14, MOGTRIZ_REFUSED_BLOCK_MISSING, "the node of a data block is missing")

/* A constant's digits as text. */
#define MOGTRIZ_DIGITS(constant) MOGTRIZ_QUOTED(constant)
#define MOGTRIZ_QUOTED(digits) #digits

enum {
    MOGTRIZ_SERVED = 0,
#define MOGTRIZ_NUMBERED(number, name, text) name = number,
    MOGTRIZ_REFUSALS(MOGTRIZ_NUMBERED)
#undef MOGTRIZ_NUMBERED
};

/*
 * A call whose answer has a refusal's number: the compiler warns where it is ignored, gcc before C23 and C++17 even where it is cast
 * to void.
 */
#if (defined(__cplusplus) && __cplusplus >= 201703L) || (defined(__STDC_VERSION__) && __STDC_VERSION__ >= 202311L)
#define MOGTRIZ_ANSWERS [[nodiscard]]
#elif defined(__GNUC__)
#define MOGTRIZ_ANSWERS __attribute__((warn_unused_result))
#else
#define MOGTRIZ_ANSWERS
#endif

/* The library's own function of such a call, which takes no null pointer. */
#ifdef __GNUC__
#define MOGTRIZ_CALL MOGTRIZ_ANSWERS __attribute__((nonnull))
#else
#define MOGTRIZ_CALL MOGTRIZ_ANSWERS
#endif

#ifdef __cplusplus
extern "C" {
#endif

/* The library's version. */
size_t mogtriz_version(void);

/* Fills the nodes buffer from an object, and gives 0 or: 1, 2, 3, then 6 where object_len is not k * len or nodes_len not n * len. */
MOGTRIZ_CALL uint8_t mogtriz_encode(size_t family, size_t k, size_t len, const uint8_t *object, size_t object_len, uint8_t *nodes,
                                    size_t nodes_len);

/*
 * Interleaving, for whoever wants damage to one data block to fall on every k-th byte of an object and not on len bytes in a row. It
 * comes before an encode, and its reverse after the object is read out. Nothing in nodes or in a box tells whether the object was
 * interleaved: the caller has to know, and keeps that beside the true length. mogtriz_encode and mogtriz_read_out take and give the
 * bytes as they are; a missing data block still gives 14.
 */

/*
 * An object interleaved: byte t of it, from 0, goes to block t % k + 1 at place t / k, which is byte (t % k) * len + t / k of `out`. So
 * `out` is k blocks of len bytes, an object for mogtriz_encode. With k 3 and len 2, abcdef becomes adbecf.
 * `out` must not overlap the object: none is interleaved in place.
 * Gives 0 or: 1, 2, 3, then 6 where object_len or out_len is not k * len. A refusal writes nothing.
 */
MOGTRIZ_CALL uint8_t mogtriz_interleave(size_t family, size_t k, size_t len, const uint8_t *object, size_t object_len, uint8_t *out,
                                        size_t out_len);

/*
 * The reverse: byte (t % k) * len + t / k of an object becomes byte t of `out`. Its answers are those of mogtriz_interleave, in the same
 * order, and an object that is interleaved and then deinterleaved, or the other way round, has the same bytes. One that was not
 * interleaved is accepted too, and where len is above 1 it comes out with bytes in wrong places.
 */
MOGTRIZ_CALL uint8_t mogtriz_deinterleave(size_t family, size_t k, size_t len, const uint8_t *object, size_t object_len, uint8_t *out,
                                          size_t out_len);

/* n, the number of nodes; 0 where the family or k is out of range. */
size_t mogtriz_node_count(size_t family, size_t k);

/* The node's column; 0 where there is no such node. */
size_t mogtriz_column(size_t family, size_t k, size_t node);

/* The node with this column; 0 where there is no such node. */
size_t mogtriz_node_of_column(size_t family, size_t k, size_t column);

/*
 * 1 where a, b and c are nodes and related: the XOR of their columns is 0, so that each one's block is the XOR of the
 * two others'. Else 0, as where two of them are equal or the family, k or one of them is out of range.
 */
uint8_t mogtriz_related(size_t family, size_t k, size_t a, size_t b, size_t c);

/*
 * A session: a family, k and len, a mark for each node number, 1 live and 0 missing, and counts. `steps` is how many steps were
 * accepted since the start, those of a run and of a plan that is carried out included, and reads[j] how often these read node j's block:
 * a step reads its two sources once each. A start, and a box that is checked or read, begin with zeros. mogtriz_step and mogtriz_run
 * count where they are served, and mogtriz_carry_plan where it carries the plan out; no other call counts, and none that is turned away.
 * The counts can be read off at any time.
 *
 * It goes in by value and comes back by value. Any content may be handed in. The answer is 13 where one of these holds, and in no
 * other case, whether a start leads to the session or not:
 *   - family, k or len is out of range;
 *   - a mark for 0 or above n is live, or a mark is neither 0 nor 1;
 *   - the reads do not sum to twice the steps;
 *   - a read count stands against 0 or above n;
 *   - the steps and the missing nodes of 1 to n together are more than n.
 * No sum wraps, however large the counts are. So `steps` is at most n in a session that is taken, and a count at most 510.
 *
 * After an encode every node is at hand: its session is a start with the list 1 to n. A node that is lost or found damaged later
 * becomes missing when its mark is set to 0. The steps since the start stay then: a repair leaves the sum of steps and missing nodes as
 * it was, a node that is lost adds one, and once the sum is above n every call with the session gives 13. A start with the list of the
 * nodes still live begins again with zero counts. mogtriz_live_nodes gives that list of a session that is not turned away; of any
 * session it is the numbers of the marks that are 1.
 */
typedef struct {
    size_t family;
    size_t k;
    size_t len;
    size_t steps;
    uint8_t live[256];
    uint16_t reads[256];
} mogtriz_session;

/* What a start or a box gives: 0 and the session, or the refusal's number and a session of zeros, which gives 13 if it is used. */
typedef struct {
    uint8_t refusal;
    mogtriz_session session;
} mogtriz_started;

/*
 * What writing a box gives, and listing the live nodes: 0 and how many bytes are written, or the refusal's number and 0; the session as
 * it was handed in.
 */
typedef struct {
    uint8_t refusal;
    size_t length;
    mogtriz_session session;
} mogtriz_written;

/*
 * What reading out gives: 0, or the refusal's number, and with 14 the lowest data block whose node is missing, else 0; the session as
 * it was handed in.
 */
typedef struct {
    uint8_t refusal;
    size_t block;
    mogtriz_session session;
} mogtriz_read_out_answer;

/*
 * What looking for the pairs of a node gives: 0 with the least pair, the smaller number first, and how many there are, all of them 0
 * where there is none; or the refusal's number and zeros. The session as it was handed in.
 */
typedef struct {
    uint8_t refusal;
    size_t smaller;
    size_t larger;
    size_t count;
    mogtriz_session session;
} mogtriz_pairs_found;

/* What a step gives: 0 and the next session, or the refusal's number and the session as it was handed in. */
typedef struct {
    uint8_t refusal;
    mogtriz_session session;
} mogtriz_stepped;

/*
 * What a plan or a run gives: 0 with its steps, its rounds and the nodes left once all its steps are made, or the refusal's
 * number and zeros. A plan, and a refusal, give the session as it was handed in; a run gives the next one.
 */
typedef struct {
    uint8_t refusal;
    size_t steps;
    size_t rounds;
    size_t left;
    mogtriz_session session;
} mogtriz_repairs;

/*
 * What checking a plan gives: 0 with `bad_step`, which is 0 where the plan is accepted, and else the number of its first bad step, from
 * 1; or the refusal's number and 0. The session as it was handed in.
 */
typedef struct {
    uint8_t refusal;
    size_t bad_step;
    mogtriz_session session;
} mogtriz_plan_checked;

/*
 * What carrying out a plan gives, with `bad_step` as in mogtriz_plan_checked. Only where `refusal` and `bad_step` are both 0 is it carried
 * out, and the session is the next one; else nothing is written, and the session is as it was handed in.
 */
typedef struct {
    uint8_t refusal;
    size_t bad_step;
    mogtriz_session session;
} mogtriz_carried;

/* A part of a box: `length` bytes from place `from` on; 0 and 0 with a refusal's number. */
typedef struct {
    uint8_t refusal;
    size_t from;
    size_t length;
} mogtriz_part;

/* What converting a box gives: 0 and its length, or the refusal's number and 0. */
typedef struct {
    uint8_t refusal;
    size_t length;
} mogtriz_converted;

/*
 * A session with the nodes of a list live, a byte a node, strictly rising; an empty list sets none. Gives 0 or: 1, 2, 3, 4 over the
 * whole list, 5.
 */
MOGTRIZ_CALL mogtriz_started mogtriz_start(size_t family, size_t k, size_t len, const uint8_t *list, size_t list_len);

/*
 * A box: byte 0 the family, byte 1 k, bytes 2 and 3 len, low byte first, byte 4 the number E of nodes held, bytes 5 to 7 zero;
 * then E node numbers, a byte each, strictly rising; then their E blocks of len bytes in the same order, the bodies. Its length
 * is MOGTRIZ_BOX_HEAD + E + E * len.
 */

/*
 * A box checked alone, which gives its session. Gives 0 or: 7 for a box that is shorter than its head, 1, 2, 3, 8, 9, 7 where the
 * length is not as its contents say, 4 over all its node numbers, 5. E above n, 9, comes before the length: such a count
 * is not taken for a cut box.
 */
MOGTRIZ_CALL mogtriz_started mogtriz_check(const uint8_t *box, size_t box_len);

/*
 * A box read into a nodes buffer: its checks, then 6 where nodes_len is not n * len. Places of missing nodes keep their bytes, so that
 * several boxes of one object can be read into one buffer; a start with the nodes of all of them then gives the session.
 */
MOGTRIZ_CALL mogtriz_started mogtriz_read(const uint8_t *box, size_t box_len, uint8_t *nodes, size_t nodes_len);

/* The body of one node, as a part of the box: its checks, then 4, and 12 where the node is not in the box. */
MOGTRIZ_CALL mogtriz_part mogtriz_body(const uint8_t *box, size_t box_len, size_t node);

/*
 * Graded order, in which others number simplex nodes: by how many data blocks are in them, and those with as many by the rising lists
 * of the blocks' numbers, compared from the front. A node's number there is its position, from 1 to n.
 * With k 3 the nodes at positions 1 to 7 are 1 2 4 3 5 6 7; a smaller k leaves out, of the order for k 8, the columns of 2^k and above.
 * A box in graded order is as said above, with positions for its node numbers. Nothing in a box tells which of the two numberings it
 * has: the caller has to know. Every call but mogtriz_from_graded takes a box to have our numbers; one in graded order, or one that was converted twice
 * the same way, is accepted there too, and its bodies can stand beside wrong nodes. Some numbers are the same in both: all with k 2.
 */

/*
 * A box in graded order converted to our numbers: each position becomes the node there. The numbers rise in the new box too, each body
 * moves with its number, and the rest stays. It is as long as the box handed in, `length` says so, and nothing beyond it is written.
 * `out` is another buffer: no box is converted in place. With k 3, nodes 3 and 4 change places: a box of both keeps its list, and its
 * two bodies are exchanged.
 * Gives 0 or: the checks of a box, 1 where its family is 2 or 3, 6 where the destination is shorter than the box.
 */
MOGTRIZ_CALL mogtriz_converted mogtriz_from_graded(const uint8_t *box, size_t box_len, uint8_t *out, size_t out_len);

/*
 * The reverse: a box with our numbers converted to graded order, each node becoming its position. Its answers are those of
 * mogtriz_from_graded, in the same order, and a box that is converted there and back, either way round, has the same bytes.
 */
MOGTRIZ_CALL mogtriz_converted mogtriz_to_graded(const uint8_t *box, size_t box_len, uint8_t *out, size_t out_len);

/*
 * A box of the listed live nodes. An empty list stands for no node, and gives a box of MOGTRIZ_BOX_HEAD bytes with E = 0; before version
 * 4 it stood for every live node. Whoever wants every live node hands in the list that mogtriz_live_nodes makes. A box that is read, and
 * written before any repair with that list or with its own, which is its E bytes from MOGTRIZ_BOX_HEAD on, has the same bytes.
 * Nothing beyond the length is written. Gives 0 or: 13, 6 where nodes_len is not n * len, 4 over the whole list, 5, 12 where a listed node
 * is missing, 6 where the destination is shorter than the box.
 */
MOGTRIZ_CALL mogtriz_written mogtriz_write(mogtriz_session session, const uint8_t *nodes, size_t nodes_len, const uint8_t *list,
                                           size_t list_len, uint8_t *out, size_t out_len);

/*
 * The session's live nodes, rising, a byte each: a list for mogtriz_write and mogtriz_start. `length` is their number, and nothing
 * beyond them is written. MOGTRIZ_MOST_NODES bytes are room for any session's list; mogtriz_live_count says how many it takes. Gives 0
 * or: 13, 6 where the buffer is shorter than the list.
 */
MOGTRIZ_CALL mogtriz_written mogtriz_live_nodes(mogtriz_session session, uint8_t *out, size_t out_len);

/*
 * The k data blocks, from the nodes that hold one each. Gives 0 or: 13, 6 where nodes_len is not n * len or object_len is not
 * k * len, 14. With 14 the data blocks whose nodes are live still stand in the places of these.
 */
MOGTRIZ_CALL mogtriz_read_out_answer mogtriz_read_out(mogtriz_session session, const uint8_t *nodes, size_t nodes_len,
                                                      uint8_t *object, size_t object_len);

/*
 * The pairs that a node, live or missing, can be had from: two live nodes that are related to it, whose blocks' XOR is its block. Given
 * are the pair whose smaller number is least, and `count`, how many pairs there are; no block is read. A live node can so be read
 * through a pair while its own drive rests. Round 1 of a plan repairs no missing node but those with a count above 0. It repairs the
 * first of them from the pair given here; a later one may get another pair or have to wait, as a node is read once in a round. With all
 * nodes live the count is (n - 1) / 2 in simplex, k - 1 in weight-two and 6 in the tetrahedron, and it is never more; it is 0 exactly
 * where there is no pair. Gives 0 or: 13, 4 where the node is 0 or above n.
 */
MOGTRIZ_ANSWERS mogtriz_pairs_found mogtriz_pairs(mogtriz_session session, size_t node);

/*
 * One repair, from two nodes that the caller names: the node's block becomes the XOR of theirs, and it becomes live. `steps` of the
 * session goes up by one, and so do the reads of the two. Gives 0 or: 13, 6 where nodes_len is not n * len, 4 for any of the three
 * numbers, 10, 11, 12 where the first or the second is missing.
 */
MOGTRIZ_CALL mogtriz_stepped mogtriz_step(mogtriz_session session, uint8_t *nodes, size_t nodes_len, size_t node, size_t first,
                                          size_t second);

/*
 * The repairs to make, in rounds from 1. A drive serves one request a round, so that in a round no node is read twice. Missing nodes
 * are taken by rising number, each with its least related pair of which both were live when the round began and neither was read in that
 * round; a node without one waits. Least is the pair whose smaller number is least. A node that is repaired serves from the next round
 * on, and a round without repairs is not counted and ends the plan. Each step is MOGTRIZ_STEP_LEN bytes: round, node, smaller, larger;
 * in a round they rise by node. There are at most n steps, and nothing beyond them is written. Where nodes are left the plan is accepted
 * all the same, and `left` says how many. Gives 0 or: 13, 6 where the destination is shorter than the plan.
 *
 * How many rounds: each repairs a node, so that there are no more rounds than steps. Waves are what rounds were before version 6, when a
 * node could be read by any number of repairs in one. A node returns in the least wave r for which its column is the XOR of the columns
 * of at most 2^r nodes that are live when round 1 begins, and a node that is left has no such r. There are no more waves than 1 for
 * k = 2, 2 for 3 and 4, 3 for 5 to 8, 4 for 9 to 16, 5 for 17 to 22. A plan leaves the nodes that waves leave, and has as many rounds as
 * there are waves, or more.
 */
MOGTRIZ_CALL mogtriz_repairs mogtriz_plan(mogtriz_session session, uint8_t *out, size_t out_len);

/*
 * The plan carried out on the nodes buffer; the next session has the repaired nodes live, and every step of the plan counted, as
 * mogtriz_step counts one. `steps` of the answer is those of this run, and session.steps those since the start. Blocks of live nodes
 * and places of nodes left keep their bytes; where there are any left the run is accepted all the same, `left` says how many, and the
 * marks of the next session say which. A live block is taken to be what it says: damage to it is not noticed, and goes into the blocks
 * repaired from it. Gives 0 or: 13, 6 where nodes_len is not n * len.
 */
MOGTRIZ_CALL mogtriz_repairs mogtriz_run(mogtriz_session session, uint8_t *nodes, size_t nodes_len);

/*
 * A plan that was made elsewhere, as by a planner that would rather read some nodes than others, checked before it is carried out. It is
 * a list of steps as mogtriz_plan writes them, MOGTRIZ_STEP_LEN bytes each: round, node, smaller, larger. It may have any number of
 * steps, of any bytes. A step is good where all of this holds:
 *   - its round is that of the step before it or one more; the first step's is 1;
 *   - the three node numbers are 1 to n, and smaller is less than larger;
 *   - its node is missing when its step comes: it is not live in the session, and no step before it repairs it;
 *   - the pair is related to the node, and both were live when its round began: in the session, or repaired in an earlier round;
 *   - no step before it in its round reads one of the pair.
 * The plan is accepted where every step is good. `bad_step` is then 0, and else the number of the first step that is not, from 1: a bad
 * step is no refusal, and never gives 4, 10, 11 or 12, so that `bad_step` has to be looked at too. An empty plan is accepted, and so is what mogtriz_plan writes for the
 * session. An accepted plan need not repair all that can be repaired, and has at most as many steps as nodes are missing. Nothing is
 * written, and what comes after the first bad step plays no part. Gives 0 or: 13, 6 where plan_len is no multiple of MOGTRIZ_STEP_LEN.
 */
MOGTRIZ_CALL mogtriz_plan_checked mogtriz_check_plan(mogtriz_session session, const uint8_t *plan, size_t plan_len);

/*
 * A plan that was made elsewhere, checked as mogtriz_check_plan does it and, where it is accepted, carried out on the nodes buffer. Its
 * steps are made in its order, each as mogtriz_step makes one: the next session has the repaired nodes live and every step counted. Where
 * the live blocks are an object's, so are the repaired ones; all other bytes stay. An empty plan repairs nothing. Where a step is bad,
 * `refusal` is 0, `bad_step` is its number and no step is made, not even those before it: `bad_step` has to be looked at too.
 * Gives 0 or: 13, 6 where nodes_len is not n * len, 6 where plan_len is no multiple of MOGTRIZ_STEP_LEN.
 */
MOGTRIZ_CALL mogtriz_carried mogtriz_carry_plan(mogtriz_session session, const uint8_t *plan, size_t plan_len, uint8_t *nodes,
                                                size_t nodes_len);

/*
 * From here on functions of this header alone: no symbol of the library.
 *
 * Each call with a buffer has one by its name with `inline` in it, which hands the library a byte's address for an empty buffer and,
 * with MOGTRIZ_CHECK_BUFFERS, asserts that the buffers are as said at the top. A macro puts it in the place of a call by name.
 */
#ifdef MOGTRIZ_CHECK_BUFFERS
#define MOGTRIZ_ASSERT(holds) assert(holds)
#else
#define MOGTRIZ_ASSERT(holds) ((void)0)
#endif

#ifdef __cplusplus
#define MOGTRIZ_ADDRESS(pointer) reinterpret_cast<uintptr_t>(pointer)
#else
#define MOGTRIZ_ADDRESS(pointer) ((uintptr_t)(pointer))
#endif

/* Whether no byte of one buffer is one of the other. */
static inline int mogtriz_inline_apart(const uint8_t *one, size_t one_len, const uint8_t *other, size_t other_len)
{
    uintptr_t start = MOGTRIZ_ADDRESS(one), other_start = MOGTRIZ_ADDRESS(other);
    if (one_len == 0 || other_len == 0) {
        return 1;
    }
    return start < other_start ? other_start - start >= one_len : start - other_start >= other_len;
}

/* A buffer that the library reads, as it takes it. */
static inline const uint8_t *mogtriz_inline_source(const uint8_t *start, size_t length)
{
    static const uint8_t none = 0;
    MOGTRIZ_ASSERT(start != NULL || length == 0);
    return length == 0 ? &none : start;
}

/* A buffer that the library writes, as it takes it. */
static inline uint8_t *mogtriz_inline_target(uint8_t *start, size_t length)
{
    static uint8_t none = 0;
    MOGTRIZ_ASSERT(start != NULL || length == 0);
    return length == 0 ? &none : start;
}

MOGTRIZ_ANSWERS static inline uint8_t mogtriz_inline_encode(size_t family, size_t k, size_t len, const uint8_t *object,
                                                            size_t object_len, uint8_t *nodes, size_t nodes_len)
{
    MOGTRIZ_ASSERT(mogtriz_inline_apart(nodes, nodes_len, object, object_len));
    return mogtriz_encode(family, k, len, mogtriz_inline_source(object, object_len), object_len,
                          mogtriz_inline_target(nodes, nodes_len), nodes_len);
}

MOGTRIZ_ANSWERS static inline uint8_t mogtriz_inline_interleave(size_t family, size_t k, size_t len, const uint8_t *object,
                                                                size_t object_len, uint8_t *out, size_t out_len)
{
    MOGTRIZ_ASSERT(mogtriz_inline_apart(out, out_len, object, object_len));
    return mogtriz_interleave(family, k, len, mogtriz_inline_source(object, object_len), object_len,
                              mogtriz_inline_target(out, out_len), out_len);
}

MOGTRIZ_ANSWERS static inline uint8_t mogtriz_inline_deinterleave(size_t family, size_t k, size_t len, const uint8_t *object,
                                                                  size_t object_len, uint8_t *out, size_t out_len)
{
    MOGTRIZ_ASSERT(mogtriz_inline_apart(out, out_len, object, object_len));
    return mogtriz_deinterleave(family, k, len, mogtriz_inline_source(object, object_len), object_len,
                                mogtriz_inline_target(out, out_len), out_len);
}

MOGTRIZ_ANSWERS static inline mogtriz_started mogtriz_inline_start(size_t family, size_t k, size_t len, const uint8_t *list,
                                                                   size_t list_len)
{
    return mogtriz_start(family, k, len, mogtriz_inline_source(list, list_len), list_len);
}

MOGTRIZ_ANSWERS static inline mogtriz_started mogtriz_inline_check(const uint8_t *box, size_t box_len)
{
    return mogtriz_check(mogtriz_inline_source(box, box_len), box_len);
}

MOGTRIZ_ANSWERS static inline mogtriz_started mogtriz_inline_read(const uint8_t *box, size_t box_len, uint8_t *nodes,
                                                                  size_t nodes_len)
{
    MOGTRIZ_ASSERT(mogtriz_inline_apart(nodes, nodes_len, box, box_len));
    return mogtriz_read(mogtriz_inline_source(box, box_len), box_len, mogtriz_inline_target(nodes, nodes_len), nodes_len);
}

MOGTRIZ_ANSWERS static inline mogtriz_part mogtriz_inline_body(const uint8_t *box, size_t box_len, size_t node)
{
    return mogtriz_body(mogtriz_inline_source(box, box_len), box_len, node);
}

MOGTRIZ_ANSWERS static inline mogtriz_converted mogtriz_inline_from_graded(const uint8_t *box, size_t box_len, uint8_t *out,
                                                                           size_t out_len)
{
    MOGTRIZ_ASSERT(mogtriz_inline_apart(out, out_len, box, box_len));
    return mogtriz_from_graded(mogtriz_inline_source(box, box_len), box_len, mogtriz_inline_target(out, out_len), out_len);
}

MOGTRIZ_ANSWERS static inline mogtriz_converted mogtriz_inline_to_graded(const uint8_t *box, size_t box_len, uint8_t *out,
                                                                         size_t out_len)
{
    MOGTRIZ_ASSERT(mogtriz_inline_apart(out, out_len, box, box_len));
    return mogtriz_to_graded(mogtriz_inline_source(box, box_len), box_len, mogtriz_inline_target(out, out_len), out_len);
}

MOGTRIZ_ANSWERS static inline mogtriz_written mogtriz_inline_write(mogtriz_session session, const uint8_t *nodes,
                                                                   size_t nodes_len, const uint8_t *list, size_t list_len,
                                                                   uint8_t *out, size_t out_len)
{
    MOGTRIZ_ASSERT(mogtriz_inline_apart(out, out_len, nodes, nodes_len));
    MOGTRIZ_ASSERT(mogtriz_inline_apart(out, out_len, list, list_len));
    return mogtriz_write(session, mogtriz_inline_source(nodes, nodes_len), nodes_len, mogtriz_inline_source(list, list_len),
                         list_len, mogtriz_inline_target(out, out_len), out_len);
}

MOGTRIZ_ANSWERS static inline mogtriz_written mogtriz_inline_live_nodes(mogtriz_session session, uint8_t *out, size_t out_len)
{
    return mogtriz_live_nodes(session, mogtriz_inline_target(out, out_len), out_len);
}

MOGTRIZ_ANSWERS static inline mogtriz_read_out_answer mogtriz_inline_read_out(mogtriz_session session, const uint8_t *nodes,
                                                                              size_t nodes_len, uint8_t *object,
                                                                              size_t object_len)
{
    MOGTRIZ_ASSERT(mogtriz_inline_apart(object, object_len, nodes, nodes_len));
    return mogtriz_read_out(session, mogtriz_inline_source(nodes, nodes_len), nodes_len,
                            mogtriz_inline_target(object, object_len), object_len);
}

MOGTRIZ_ANSWERS static inline mogtriz_stepped mogtriz_inline_step(mogtriz_session session, uint8_t *nodes, size_t nodes_len,
                                                                  size_t node, size_t first, size_t second)
{
    return mogtriz_step(session, mogtriz_inline_target(nodes, nodes_len), nodes_len, node, first, second);
}

MOGTRIZ_ANSWERS static inline mogtriz_repairs mogtriz_inline_plan(mogtriz_session session, uint8_t *out, size_t out_len)
{
    return mogtriz_plan(session, mogtriz_inline_target(out, out_len), out_len);
}

MOGTRIZ_ANSWERS static inline mogtriz_repairs mogtriz_inline_run(mogtriz_session session, uint8_t *nodes, size_t nodes_len)
{
    return mogtriz_run(session, mogtriz_inline_target(nodes, nodes_len), nodes_len);
}

MOGTRIZ_ANSWERS static inline mogtriz_plan_checked mogtriz_inline_check_plan(mogtriz_session session, const uint8_t *plan,
                                                                             size_t plan_len)
{
    return mogtriz_check_plan(session, mogtriz_inline_source(plan, plan_len), plan_len);
}

MOGTRIZ_ANSWERS static inline mogtriz_carried mogtriz_inline_carry_plan(mogtriz_session session, const uint8_t *plan,
                                                                        size_t plan_len, uint8_t *nodes, size_t nodes_len)
{
    MOGTRIZ_ASSERT(mogtriz_inline_apart(nodes, nodes_len, plan, plan_len));
    return mogtriz_carry_plan(session, mogtriz_inline_source(plan, plan_len), plan_len, mogtriz_inline_target(nodes, nodes_len),
                              nodes_len);
}

#undef MOGTRIZ_ASSERT
#undef MOGTRIZ_ADDRESS
#undef MOGTRIZ_CALL
#undef MOGTRIZ_ANSWERS

#define mogtriz_encode(...) mogtriz_inline_encode(__VA_ARGS__)
#define mogtriz_interleave(...) mogtriz_inline_interleave(__VA_ARGS__)
#define mogtriz_deinterleave(...) mogtriz_inline_deinterleave(__VA_ARGS__)
#define mogtriz_start(...) mogtriz_inline_start(__VA_ARGS__)
#define mogtriz_check(...) mogtriz_inline_check(__VA_ARGS__)
#define mogtriz_read(...) mogtriz_inline_read(__VA_ARGS__)
#define mogtriz_body(...) mogtriz_inline_body(__VA_ARGS__)
#define mogtriz_from_graded(...) mogtriz_inline_from_graded(__VA_ARGS__)
#define mogtriz_to_graded(...) mogtriz_inline_to_graded(__VA_ARGS__)
#define mogtriz_write(...) mogtriz_inline_write(__VA_ARGS__)
#define mogtriz_live_nodes(...) mogtriz_inline_live_nodes(__VA_ARGS__)
#define mogtriz_read_out(...) mogtriz_inline_read_out(__VA_ARGS__)
#define mogtriz_step(...) mogtriz_inline_step(__VA_ARGS__)
#define mogtriz_plan(...) mogtriz_inline_plan(__VA_ARGS__)
#define mogtriz_run(...) mogtriz_inline_run(__VA_ARGS__)
#define mogtriz_check_plan(...) mogtriz_inline_check_plan(__VA_ARGS__)
#define mogtriz_carry_plan(...) mogtriz_inline_carry_plan(__VA_ARGS__)

/* A sentence on an answer's number, with no full stop; any number has one. */
static inline const char *mogtriz_refusal_text(size_t number)
{
    switch (number) {
    case MOGTRIZ_SERVED:
        return "served";
#define MOGTRIZ_CASE(number, name, text) \
    case name:                           \
        return text;
        MOGTRIZ_REFUSALS(MOGTRIZ_CASE)
#undef MOGTRIZ_CASE
    default:
        return "a reason that has no name in this header";
    }
}

/*
 * The length in bytes of an object, k * len; of a nodes buffer, n * len; and of a box of so many nodes. 0 where family, k or len is
 * out of range, or `held` above n: it is the length of none of them, and with numbers in range no product overflows.
 */
static inline size_t mogtriz_object_len(size_t family, size_t k, size_t len)
{
    if (mogtriz_start(family, k, len, NULL, 0).refusal != MOGTRIZ_SERVED) {
        return 0;
    }
    return k * len;
}

static inline size_t mogtriz_nodes_len(size_t family, size_t k, size_t len)
{
    if (mogtriz_start(family, k, len, NULL, 0).refusal != MOGTRIZ_SERVED) {
        return 0;
    }
    return mogtriz_node_count(family, k) * len;
}

static inline size_t mogtriz_box_len(size_t family, size_t k, size_t len, size_t held)
{
    if (mogtriz_start(family, k, len, NULL, 0).refusal != MOGTRIZ_SERVED || held > mogtriz_node_count(family, k)) {
        return 0;
    }
    return MOGTRIZ_BOX_HEAD + held + held * len;
}

/*
 * How many nodes are live, in a session that is not turned away with 13: the room that mogtriz_live_nodes needs, and the `held` of a box
 * of every live node. Of any other session it is how many of the marks from 1 on are 1.
 */
static inline size_t mogtriz_live_count(mogtriz_session session)
{
    size_t count = 0;
    for (size_t node = 1; node <= MOGTRIZ_MOST_NODES; node++) {
        count += session.live[node] == 1;
    }
    return count;
}

#ifdef __cplusplus
}
#endif

#endif
