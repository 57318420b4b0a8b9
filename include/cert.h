/*
 * Jointeroat: verified processing of proof certificates, on buffers that the caller lends.
 * For C99 and C++; link with libdock.a.
 *
 * What holds for every call:
 *
 * - The caller lends the pack and each buffer as a pointer and a length in elements. A
 *   pointer is non-null and aligned for its elements, also where the length is 0: then
 *   nothing is read or written there, and any such pointer will do.
 * - The pack is only read. What the call writes overlaps nothing else that is lent.
 * - Buffers may hold anything ahead of a call; no answer depends on it.
 * - The call allocates nothing and keeps nothing, so calls on buffers of their own may run
 *   at the same time.
 * - The answer, and every cell lent for writing, follow from the input alone.
 */
#ifndef CERT_H
#define CERT_H

#include <stddef.h>
#include <stdint.h>

#ifdef __cplusplus
extern "C" {
#endif

/* The numbers of answers. */
enum {
    CERT_DONE,     /* 0: done */
    CERT_FORM,     /* 1: a record cut, misordered or against its form; its offset */
    CERT_LIMIT,    /* 2: over a limit; the record's offset, or 0 for a lent length */
    CERT_STEP,     /* 3: a step that fails; the step */
    CERT_GOAL,     /* 4: a goal without result, or one with another judgment; the goal */
    CERT_CLASH,    /* 5: a clash as a step's class is made; the step */
    CERT_CIRCLE,   /* 6: a circle; the step */
    CERT_INSTANCE, /* 7: judgments that are no instance; the step */
    CERT_SHORT     /* 8: a short buffer; the buffer's number */
};

/* The numbers of buffers, as CERT_SHORT gives them for its place. */
enum { CERT_CLASSES = 1, CERT_PATTERN, CERT_GRAPH, CERT_WORK, CERT_TEXT };

/* The most bytes of a pack or cells of a buffer, and the most words of work. */
#define CERT_MOST_CELLS ((size_t)1 << 24)
#define CERT_MOST_WORK ((size_t)1 << 30)

/* In class words: the step isn't needed, so it has no class. */
#define CERT_NO_CLASS UINT32_C(0xFFFFFFFF)

/* In pattern words, for a head: the node is a variable. */
#define CERT_VARIABLE UINT32_C(0xFFFFFFFE)

/* Words of work: so many for each pattern word, graph cell and byte of the pack, and
 * so many more. */
#define CERT_WORK_SHARE ((size_t)16)
#define CERT_WORK_MORE ((size_t)1024)

/* The least work that a call asks for with these lengths, none above its limit; 0 for a
 * buffer that the call isn't lent. */
static inline size_t cert_least_work(size_t pattern_len, size_t graph_len, size_t pack_len)
{
    return CERT_WORK_SHARE * (pattern_len + graph_len + pack_len) + CERT_WORK_MORE;
}

/* The number of an answer, and its place. 0 at 0: done. */
struct cert_answer {
    uint64_t code, place;
};

/*
 * The verdict on a pack's steps and goals.
 *
 * A step passes if one assignment of the variables that occur in its rule turns the
 * premises into its refs' judgments and the conclusion into its own. Then each goal needs
 * a result of its name whose step has the goal's judgment.
 *
 * Lent:
 *   pack  pack_len bytes, at most 2^24; none is the empty pack, which passes
 *   work  work_len words, at least cert_least_work(0, 0, pack_len) and at most 2^30; all
 *         of them are zero behind the call, whatever it answers
 *
 * Code and place:
 *   0  0       every step passes and every goal has its result
 *   1  offset  a record is cut, misordered or against its form
 *   2  offset  a record is over a limit
 *   2  0       pack_len or work_len is over its limit
 *   3  step    the step fails
 *   4  goal    the goal has no result, or one with another judgment
 *   8  4       work is short
 *
 * An offset is that of the record's first byte in the pack; steps and goals are numbered
 * from 0 in the pack's order. The first that applies is the answer: lengths over a limit,
 * work, the first bad record, the first step that fails, the first goal.
 */
struct cert_answer cert_check(const uint8_t *pack, size_t pack_len, uint32_t *work,
                              size_t work_len);

/* What class building counts; all 0 with a refusal. */
struct cert_figures {
    uint64_t steps;           /* needed steps */
    uint64_t classes;         /* classes made */
    uint64_t ground_nodes;    /* the pack's ground nodes, used or not */
    uint64_t pattern_nodes;   /* nodes of the pattern store */
    uint64_t class_vars;      /* variables of the classes that aren't cut */
    uint64_t flex_vars;       /* flexible ones among them */
    uint64_t fixed_vars;      /* variables fixed to their ground values */
    uint64_t subst_entries;   /* variables of the copies, read back */
    uint64_t subst_renamings; /* those that were read back as variables */
    /* classes of up to 1 step, of 2 to 9, of 10 to 99, of 100 or more */
    uint64_t single, few, tens, hundreds;
};

/* The number of an answer, its place, and the figures. */
struct cert_classes_answer {
    uint64_t code, place;
    struct cert_figures figures;
};

/*
 * The classes of a pack's needed steps, and the most general conclusion of each.
 *
 * Lent:
 *   pack     pack_len bytes, at most 2^24
 *   classes  classes_len words, at most 2^24: class words
 *   pattern  pattern_len words, at most 2^24: pattern words
 *   graph    graph_len cells, at most 2^24; zero behind the call
 *   work     work_len words, at least cert_least_work(pattern_len, graph_len, pack_len) and
 *            at most 2^30; zero behind the call
 *
 * Class words: each step's class, from 0 in the order of their first steps, or
 * CERT_NO_CLASS where the step isn't needed; then for each class its conclusion's pattern
 * node, how many steps it has, how many variables, and for each variable whether it is
 * flexible, 1 or 0.
 * Pattern words: for each node how many arguments it has, its head and the arguments; a
 * variable is 2, CERT_VARIABLE, its number, its sort. Zeros stand behind both.
 *
 * Code and place:
 *   0  0       done
 *   1  offset  a record is cut, misordered or against its form
 *   2  offset  a record is over a limit
 *   2  0       a length is over its limit
 *   4  goal    the goal has no result, or one with another judgment
 *   5  step    as the step's class is made, a premise clashes with its ref's conclusion
 *   6  step    a circle is left
 *   7  step    the refs' judgments are no instance of the premises, or a goal's judgment is
 *              none of its class's conclusion
 *   8  buffer  classes (1), pattern (2), graph (3) or work (4) is short
 *
 * Steps and goals are numbered from 0 in the pack's order. The first that applies is the
 * answer: lengths over a limit, work, the first bad record, then the run, class by class in
 * the order of their first steps, then goal by goal; an 8 at 1, 2 or 3 where the run would
 * write past that buffer, 1 ahead of the first class where the steps' words have no room.
 * A step's own rule is not tested here: that is cert_check's.
 *
 * Every cell of the four buffers is zero behind a refusal. Behind an 8 at 1, 2 or 3 lend
 * that buffer longer, lend work for the new lengths, and call again. An 8 at a buffer of
 * 2^24 cells stands: the pack's classes are too many or too large for any.
 *
 * If cert_check answers 0 of the pack and the buffers suffice, the answer is 0, two needed
 * steps have one class exactly if their keys are equal, each needed step's judgment is an
 * instance of its class's conclusion, and a judgment is one exactly if some derivation of
 * the class's shape concludes it.
 */
struct cert_classes_answer cert_classes(const uint8_t *pack, size_t pack_len,
                                        uint32_t *classes, size_t classes_len,
                                        uint32_t *pattern, size_t pattern_len,
                                        uint32_t *graph, size_t graph_len, uint32_t *work,
                                        size_t work_len);

/* The number of an answer, its place, how many bytes of text there are, and the figures. */
struct cert_show_answer {
    uint64_t code, place;
    uint64_t text_len; /* 0 with a refusal */
    struct cert_figures figures;
};

/*
 * The goals of a pack in their general forms, with the values of their variables, as text.
 * The classes come with it, as cert_classes gives them.
 *
 * budget        as many nodes of a general form are shown, 60 as a rule
 * value_budget  as many nodes of a value are shown, 12 as a rule
 * Both are taken anew for each form and each value, and neither has a limit of its own.
 *
 * Lent:
 *   pack     pack_len bytes, at most 2^24
 *   classes  classes_len words, at most 2^24: class words, as in cert_classes
 *   pattern  pattern_len words, at most 2^24: pattern words, as in cert_classes
 *   graph    graph_len cells, at most 2^24; zero behind the call
 *   work     work_len words, at least cert_least_work(pattern_len, graph_len, pack_len) and
 *            at most 2^30; zero behind the call. Text adds nothing to the least
 *   text     text_len bytes, at most 2^24: the lines, and zeros behind them
 *
 * Text: for each goal, ascending, a line of its name, a blank and the general form, which is
 * the conclusion of its class; then a line for each variable of the conclusion, ascending,
 * as `?v0 : Nat 1 (s z)`: number, sort, flex mark 1 or 0, value. A node takes a unit of the
 * budget, a variable too, from left to right. Spent, it shows an ellipsis (bytes E2 80 A6)
 * for each further argument; brackets that are open are closed. A judgment stands in
 * brackets, `(q)`, a constant does not. Each line ends in a newline, the last one too. How
 * many bytes all lines have is the answer's text_len; a pack without goals has none.
 *
 * Code and place are as in cert_classes, and besides:
 *   2  0       text_len too is a length that can be over its limit
 *   8  5       text is short
 *
 * Text is written behind all else: classes, then the goals' tests, then text. So a 4 or 7 at
 * a goal, or an 8 at another buffer, comes ahead of any 8 at 5.
 *
 * Every cell of the five buffers is zero behind a refusal. Behind an 8 at 1, 2, 3 or 5 lend
 * that buffer longer, with work for the new lengths, and call again. An 8 at a text of 2^24
 * bytes stands for these budgets: what a term shares comes again in its text at each place,
 * so that the text of a small pack can be longer than any buffer. A smaller budget ends it.
 */
struct cert_show_answer cert_show(const uint8_t *pack, size_t pack_len, uint64_t budget,
                                  uint64_t value_budget, uint32_t *classes,
                                  size_t classes_len, uint32_t *pattern, size_t pattern_len,
                                  uint32_t *graph, size_t graph_len, uint32_t *work,
                                  size_t work_len, uint8_t *text, size_t text_len);

#ifdef __cplusplus
}
#endif

#endif
