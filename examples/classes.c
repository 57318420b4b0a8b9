/*
 * classes: the classes of a pack file's needed steps, by the library's cert_classes.
 *
 *   classes PACK
 *
 * A line says how many; then come each class with its most general conclusion and a line a
 * variable, and the figures. Exit status and refusals: host.h.
 */
#include "host.h"

#include <inttypes.h>
#include <stdio.h>

const char program[] = "classes";
const struct option options[] = {{NULL, NULL}};

static struct cert_answer call(const uint8_t *pack, size_t length, const struct lent *lent,
                               void *answer)
{
    struct cert_classes_answer *classes = answer;
    *classes = cert_classes(pack, length, lent->cells[CERT_CLASSES], lent->length[CERT_CLASSES],
                            lent->cells[CERT_PATTERN], lent->length[CERT_PATTERN],
                            lent->cells[CERT_GRAPH], lent->length[CERT_GRAPH],
                            lent->cells[CERT_WORK], lent->length[CERT_WORK]);
    return (struct cert_answer){classes->code, classes->place};
}

/* Little-endian fields, and a record's parts: length, kind, body. */
static uint32_t half(const uint8_t *at)
{
    return (uint32_t)at[0] | (uint32_t)at[1] << 8;
}

static uint32_t word(const uint8_t *at)
{
    return half(at) | half(at + 2) << 16;
}

enum { KIND = 4, BODY = 6 };
enum { SORT = 1, SYMBOL = 2, RULE = 3, STEP = 5, CUT = 8 };

static const uint8_t *behind(const uint8_t *record)
{
    return record + BODY + word(record);
}

/* What is known behind an answer of 0: the pack's records, by number, as document 01 limits
 * them, and the words written. */
struct view {
    const uint8_t *sort[256], *symbol[4096], *rule[4096], *first_step;
    bool cut[4096]; /* by symbol */
    uint32_t steps;
    const uint32_t *class_words, *pattern_words;
    const uint32_t *node; /* where a pattern node's words start */
};

static void see_records(struct view *view, const uint8_t *pack, size_t length)
{
    uint32_t sorts = 0, symbols = 0, rules = 0;
    for (const uint8_t *record = pack; record < pack + length; record = behind(record)) {
        uint32_t kind = half(record + KIND);
        if (kind == SORT)
            view->sort[sorts++] = record;
        else if (kind == SYMBOL)
            view->symbol[symbols++] = record;
        else if (kind == RULE)
            view->rule[rules++] = record;
        else if (kind == STEP && view->steps++ == 0)
            view->first_step = record;
        else if (kind == CUT)
            view->cut[word(record + BODY)] = true;
    }
}

/* A name fills the rest of its record. */
static void print_name(const uint8_t *record, const uint8_t *name)
{
    printf("%.*s", (int)(behind(record) - name), (const char *)name);
}

static void print_sort(const uint8_t *sort)
{
    print_name(sort, sort + BODY);
}

static uint32_t arity(const uint8_t *symbol)
{
    return half(symbol + BODY + 4);
}

static void print_symbol(const uint8_t *symbol)
{
    print_name(symbol, symbol + BODY + 6 + 4 * arity(symbol));
}

/* A rule's name stands behind its terms, which are in prefix order. */
static void print_rule(const struct view *view, const uint8_t *rule)
{
    const uint8_t *at = rule + BODY + 4 + 4 * half(rule + BODY);
    for (uint32_t terms = half(rule + BODY + 2) + 1; terms > 0; terms--, at += 4)
        if (word(at) < UINT32_C(1) << 31)
            terms += arity(view->symbol[word(at)]);
    print_name(rule, at);
}

/* As many nodes of a conclusion are shown. */
enum { BUDGET = 60 };

/* A conclusion being shown: what is left of the budget, whether all was shown so far, and
 * the variables' words, one for each place. */
struct shown {
    int left;
    bool all;
    int places;
    const uint32_t *variable[BUDGET];
};

/* A pattern node in words: a unit of the budget for each node, from left to right. */
static void show(const struct view *view, struct shown *shown, uint32_t node, bool judgment)
{
    if (shown->left == 0) {
        printf("\xE2\x80\xA6");
        shown->all = false;
        return;
    }
    shown->left--;
    const uint32_t *words = view->pattern_words + view->node[node];
    uint32_t count = words[0], head = words[1];
    if (head == CERT_VARIABLE) {
        printf("?v%" PRIu32, words[2]);
        shown->variable[shown->places++] = words;
        return;
    }
    bool brackets = judgment || count > 0;
    if (brackets)
        printf("(");
    print_symbol(view->symbol[head]);
    for (uint32_t i = 0; i < count; i++) {
        printf(" ");
        show(view, shown, words[2 + i], false);
    }
    if (brackets)
        printf(")");
}

/* A variable of a class: its sort where it was met, else what is known of its places. */
static void print_variable(const struct view *view, const struct shown *shown, uint32_t number,
                           bool flexible)
{
    int i = 0;
    while (i < shown->places && shown->variable[i][2] != number)
        i++;
    printf("  ?v%" PRIu32, number);
    if (i < shown->places) {
        printf(" : ");
        print_sort(view->sort[shown->variable[i][3]]);
    }
    printf(flexible ? ", flexible" : ", not flexible");
    if (i == shown->places)
        printf(shown->all ? ", in a premise only" : ", not in the part shown");
    printf("\n");
}

/* A count with its noun. */
static void print_count(uint64_t count, const char *one, const char *many)
{
    printf("%" PRIu64 " %s", count, count == 1 ? one : many);
}

/* A class by its row, with the rule of its first step. It is a cut one if its predicate is:
 * so it is wherever cert_check answers 0. Answers the next row. */
static const uint32_t *print_class(const struct view *view, uint32_t number, const uint32_t *row,
                                   const uint8_t *rule)
{
    uint32_t conclusion = row[0], steps = row[1], variables = row[2];
    const uint32_t *flex = row + 3;
    printf("class %" PRIu32 ": ", number);
    print_count(steps, "step", "steps");
    if (view->cut[view->pattern_words[view->node[conclusion] + 1]]) {
        printf(", cut: ");
    } else {
        printf(" by rule ");
        print_rule(view, rule);
        printf(": ");
    }
    struct shown shown = {.left = BUDGET, .all = true};
    show(view, &shown, conclusion, true);
    printf("\n");
    for (uint32_t i = 0; i < variables; i++)
        print_variable(view, &shown, i, flex[i] == 1);
    return flex + variables;
}

/* The classes in their order, which is that of their first steps. */
static void print_classes(const struct view *view, uint64_t classes)
{
    const uint32_t *row = view->class_words + view->steps;
    const uint32_t *class = view->class_words;
    const uint8_t *step = view->first_step;
    for (uint32_t number = 0; number < classes; number++) {
        for (; *class != number; class++)
            step = behind(step);
        row = print_class(view, number, row, view->rule[word(step + BODY)]);
    }
}

static void print_figures(const struct cert_figures *figures)
{
    const struct {
        const char *meaning;
        uint64_t figure;
    } lines[] = {
        {"ground nodes of the pack", figures->ground_nodes},
        {"pattern nodes", figures->pattern_nodes},
        {"variables of the classes that aren't cut", figures->class_vars},
        {"flexible ones among them", figures->flex_vars},
        {"variables fixed to their ground values", figures->fixed_vars},
        {"variables of the copies, read back", figures->subst_entries},
        {"those read back as variables", figures->subst_renamings},
        {"classes of up to 1 step", figures->single},
        {"classes of 2 to 9 steps", figures->few},
        {"classes of 10 to 99 steps", figures->tens},
        {"classes of 100 or more steps", figures->hundreds},
    };
    printf("figures:\n");
    for (size_t i = 0; i < sizeof lines / sizeof *lines; i++)
        printf("  %s: %" PRIu64 "\n", lines[i].meaning, lines[i].figure);
}

static void print_all(const char *path, const uint8_t *pack, size_t length,
                      const struct lent *lent, const struct cert_figures *figures)
{
    struct view view = {.class_words = lent->cells[CERT_CLASSES],
                        .pattern_words = lent->cells[CERT_PATTERN]};
    see_records(&view, pack, length);

    /* Work is the host's again, and has a word for each pattern node. */
    uint32_t *node = lent->cells[CERT_WORK], at = 0;
    for (uint64_t i = 0; i < figures->pattern_nodes; i++) {
        node[i] = at;
        at += 2 + view.pattern_words[at];
    }
    view.node = node;

    printf("%s: ", path);
    print_count(figures->steps, "needed step", "needed steps");
    printf(" of %" PRIu32 " in ", view.steps);
    print_count(figures->classes, "class", "classes");
    printf("\n");
    print_classes(&view, figures->classes);
    print_figures(figures);
}

int run(const char *path, const uint8_t *pack, size_t length)
{
    struct lent lent;
    struct cert_classes_answer answer;
    int status = ACCEPTED;
    if (!grow(pack, length, 0, call, &lent, &answer))
        status = fault(path, "out of memory");
    else if (answer.code != CERT_DONE)
        status = refused(path, length, answer.code, answer.place);
    else
        print_all(path, pack, length, &lent, &answer.figures);
    give_back(&lent);
    return status;
}
