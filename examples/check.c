/*
 * check: the verdict on the steps and goals of a pack file, by the library's cert_check.
 *
 *   check PACK
 *
 * One line says it. Exit status and refusals: host.h.
 */
#include "host.h"

#include <stdio.h>
#include <stdlib.h>

const char program[] = "check";
const struct option options[] = {{NULL, NULL}};

int run(const char *path, const uint8_t *pack, size_t length)
{
    /* A pack that is too long is refused by its length, whatever the work. */
    size_t words = cert_least_work(0, 0, length > CERT_MOST_CELLS ? 0 : length);
    uint32_t *work = malloc(words * sizeof *work);
    if (!work)
        return fault(path, "out of memory");
    struct cert_answer answer = cert_check(pack, length, work, words);
    free(work);

    if (answer.code != CERT_DONE)
        return refused(path, length, answer.code, answer.place);
    printf("%s: every step follows and every goal has its result\n", path);
    return ACCEPTED;
}
