/* What the tests in C share: document 01's box of nodes 4, 5 and 7, and a count of what was not as expected. */
#include "mogtriz.h"

#include <stdio.h>
#include <string.h>

enum { K = 3, N = 7, LEN = 1 };

static const uint8_t object[K * LEN] = {1, 2, 4};
static const uint8_t all_nodes[N * LEN] = {1, 2, 3, 4, 5, 6, 7};
static const uint8_t three_nodes[N * LEN] = {0, 0, 0, 4, 5, 0, 7};
static const uint8_t kept[] = {4, 5, 7};
static const uint8_t three_box[] = {1, 3, 1, 0, 3, 0, 0, 0, 4, 5, 7, 4, 5, 7};

static int wrong = 0;

#define EXPECT(what) expect((what), #what)

static inline void expect(int holds, const char *what)
{
    if (!holds) {
        fprintf(stderr, "not so: %s\n", what);
        wrong++;
    }
}

/* The session with nodes 4, 5 and 7 live. */
static inline mogtriz_session three_live(void)
{
    return mogtriz_start(MOGTRIZ_SIMPLEX, K, LEN, kept, sizeof kept).session;
}
