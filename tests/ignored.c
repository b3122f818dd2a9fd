/* Every call with a refusal in its answer, and nobody looks at it: the compiler has to warn of each. Compiled, and never run. */
#include "three_nodes.h"

void ignore_answers(uint8_t *buffer, size_t length);

void ignore_answers(uint8_t *buffer, size_t length)
{
    mogtriz_encode(MOGTRIZ_SIMPLEX, K, LEN, object, sizeof object, buffer, length);
    mogtriz_interleave(MOGTRIZ_SIMPLEX, K, LEN, object, sizeof object, buffer, length);
    mogtriz_deinterleave(MOGTRIZ_SIMPLEX, K, LEN, object, sizeof object, buffer, length);
    mogtriz_start(MOGTRIZ_SIMPLEX, K, LEN, kept, sizeof kept);
    mogtriz_check(buffer, length);
    mogtriz_read(three_box, sizeof three_box, buffer, length);
    mogtriz_body(buffer, length, 4);
    mogtriz_from_graded(three_box, sizeof three_box, buffer, length);
    mogtriz_to_graded(three_box, sizeof three_box, buffer, length);
    mogtriz_write(three_live(), three_nodes, sizeof three_nodes, kept, sizeof kept, buffer, length);
    mogtriz_live_nodes(three_live(), buffer, length);
    mogtriz_read_out(three_live(), all_nodes, sizeof all_nodes, buffer, length);
    mogtriz_pairs(three_live(), 1);
    mogtriz_step(three_live(), buffer, length, 1, 4, 5);
    mogtriz_plan(three_live(), buffer, length);
    mogtriz_run(three_live(), buffer, length);
    mogtriz_check_plan(three_live(), buffer, length);
    mogtriz_carry_plan(three_live(), kept, sizeof kept, buffer, length);
}
