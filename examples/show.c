/*
 * show: the goals of a pack file in their general forms, by the library's cert_show.
 *
 *   show PACK [--budget N] [--values N]
 *
 * For each goal a line of its name and its general form, in which as many nodes are shown as
 * --budget says, 60 if it isn't given; then a line for each variable: its number and sort, 1
 * if it is flexible and 0 if not, and its value in the pack, of which as many nodes are shown
 * as --values says, else 12. Exit status and refusals: host.h.
 */
#include "host.h"

#include <stdio.h>

const char program[] = "show";

static uint64_t budget = 60, values = 12;
const struct option options[] = {{"--budget", &budget}, {"--values", &values}, {NULL, NULL}};

/* As long as the text of some goals. */
enum { FEW_BYTES = 512 };

static struct cert_answer call(const uint8_t *pack, size_t length, const struct lent *lent,
                               void *answer)
{
    struct cert_show_answer *shown = answer;
    *shown = cert_show(pack, length, budget, values, lent->cells[CERT_CLASSES],
                       lent->length[CERT_CLASSES], lent->cells[CERT_PATTERN],
                       lent->length[CERT_PATTERN], lent->cells[CERT_GRAPH],
                       lent->length[CERT_GRAPH], lent->cells[CERT_WORK],
                       lent->length[CERT_WORK], lent->cells[CERT_TEXT],
                       lent->length[CERT_TEXT]);
    return (struct cert_answer){shown->code, shown->place};
}

int run(const char *path, const uint8_t *pack, size_t length)
{
    struct lent lent;
    struct cert_show_answer answer;
    int status = ACCEPTED;
    if (!grow(pack, length, FEW_BYTES, call, &lent, &answer))
        status = fault(path, "out of memory");
    else if (answer.code != CERT_DONE)
        status = refused(path, length, answer.code, answer.place);
    else
        fwrite(lent.cells[CERT_TEXT], 1, (size_t)answer.text_len, stdout);
    give_back(&lent);
    return status;
}
