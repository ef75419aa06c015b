/*
 * Source document 001, Tables 4 and 5: single threads that interleave, and what a warp's stack and disable states hold for each of them; with a search for the run of
 * thread steps that Proposition 1 promises for a warp step. For small kernels: few lanes, low stacks.
 */
#ifndef THREADS_H
#define THREADS_H

#include "warp.h"

enum { FEW_LANES = 3, LOW = 64 };

/* On a thread's stack: a statement, the underlined while, the half of an assignment that is left to do (`x = v;`), or a context. */
enum item_kind { T_STATEMENT, T_WHILE_AGAIN, T_WRITE, T_BRK, T_CALL };
struct item {
    uint8_t kind;
    uint16_t row;   /* of all but contexts */
    uint32_t value; /* v */
};

struct thread {
    uint32_t height;
    struct item stack[LOW]; /* the top is the last */
};

/* "An interleaved thread configuration": a stack for each thread, and the memory. */
struct threads {
    struct thread of[FEW_LANES];
    uint32_t cells[CELLS];
};

/* The document's rules, or wrong ones that the search must find wanting. */
struct rules {
    int in_one_step; /* an assignment reads and writes in one step, of which section 4.1 says that it does not do */
    int as_printed;  /* Table 5 as the copy prints it, in which an inactive thread stays so for ever; the prose has its activation */
};

/* What a warp's configuration holds for each of its threads. Answers 0 where a stack is too high for a search. */
int project(const struct kernel *kernel, const struct warp *warp, struct rules rules, struct threads *out);

/* One step of one thread, by the one rule that can be applied. Answers 0 where there is none, or where the stack would be too high. */
int thread_step(const struct kernel *kernel, uint32_t lane, struct rules rules, struct threads *threads);

int same_threads(const struct kernel *kernel, const struct threads *a, const struct threads *b);

/*
 * Is there a run of thread steps, possibly empty, from the one to the other? Tries all of up to `most` steps. Answers 1 or 0, or -1 where there were too many states to tell.
 */
int reaches(const struct kernel *kernel, struct rules rules, const struct threads *from, const struct threads *to, uint32_t most);

#endif
