/* What the example hosts share: the call, the pack file, buffers, faults and refusals. See
 * host.h. */
#include "host.h"

#include <errno.h>
#include <inttypes.h>
#include <stdio.h>
#include <stdlib.h>
#include <string.h>

int fault(const char *path, const char *why)
{
    fprintf(stderr, "%s: %s: %s\n", program, path, why);
    return FAULT;
}

int refused(const char *path, size_t length, uint64_t code, uint64_t place)
{
    static const char *const buffers[] = {"class", "pattern", "graph", "work", "text"};
    printf("%s: ", path);
    if (code == CERT_FORM)
        printf("the record at byte %" PRIu64 " is against its form", place);
    else if (code == CERT_LIMIT && length > CERT_MOST_CELLS)
        printf("the pack has more than %zu bytes", CERT_MOST_CELLS);
    else if (code == CERT_LIMIT)
        printf("the record at byte %" PRIu64 " is over a limit", place);
    else if (code == CERT_STEP)
        printf("step %" PRIu64 " does not follow by its rule", place);
    else if (code == CERT_GOAL)
        printf("goal %" PRIu64 " has no result with its judgment", place);
    else if (code == CERT_CLASH)
        printf("a premise of step %" PRIu64 " clashes with its ref's conclusion", place);
    else if (code == CERT_CIRCLE)
        printf("unifying the premises of step %" PRIu64 " leaves a circle", place);
    else if (code == CERT_INSTANCE)
        printf("step %" PRIu64 ": the refs' judgments are no instance of the premises, or its "
               "own is none of its class's conclusion", place);
    else if (code == CERT_SHORT && place >= CERT_CLASSES && place <= CERT_TEXT)
        printf("the %s buffer is short", buffers[place - CERT_CLASSES]);
    else
        printf("refused");
    printf(" (%" PRIu64 " at %" PRIu64 ")\n", code, place);
    return REFUSED;
}

void give_back(struct lent *lent)
{
    for (int i = CERT_CLASSES; i <= CERT_TEXT; i++)
        free(lent->cells[i]);
}

/* Buffers of these lengths, with the work that they ask for: less than 2^30 words, however
 * long they are. False if there is no memory for one. */
static bool lend(struct lent *lent, size_t pack_len)
{
    bool all = true;
    lent->length[CERT_WORK] =
        cert_least_work(lent->length[CERT_PATTERN], lent->length[CERT_GRAPH], pack_len);
    for (int i = CERT_CLASSES; i <= CERT_TEXT; i++) {
        /* A pointer that is lent is not null, also where the length is 0. */
        size_t cells = lent->length[i] > 0 ? lent->length[i] : 1;
        lent->cells[i] = malloc(cells * (i == CERT_TEXT ? sizeof(uint8_t) : sizeof(uint32_t)));
        all = all && lent->cells[i];
    }
    return all;
}

/* A short buffer is to be twice as long; false if it can't be longer. Work never is short. */
static bool lengthen(struct lent *lent, uint64_t buffer)
{
    if (buffer < CERT_CLASSES || buffer > CERT_TEXT || buffer == CERT_WORK
        || lent->length[buffer] >= CERT_MOST_CELLS)
        return false;
    size_t twice = 2 * lent->length[buffer];
    lent->length[buffer] = twice < CERT_MOST_CELLS ? twice : CERT_MOST_CELLS;
    return true;
}

bool grow(const uint8_t *pack, size_t length, size_t text, in_buffers *call, struct lent *lent,
          void *answer)
{
    /* A pack that is too long is refused by its length, whatever the buffers. A step's
     * record has 14 bytes at least. */
    size_t pack_len = length > CERT_MOST_CELLS ? 0 : length;
    struct cert_answer said;
    *lent = (struct lent){
        .length = {[CERT_CLASSES] = pack_len / 14 + 64, [CERT_PATTERN] = 1024,
                   [CERT_GRAPH] = 1024, [CERT_TEXT] = text},
    };
    do {
        give_back(lent);
        if (!lend(lent, pack_len))
            return false;
        said = call(pack, length, lent, answer);
    } while (said.code == CERT_SHORT && lengthen(lent, said.place));
    return true;
}

/* A file's bytes: at most one more than a pack may have, so that the library sees one too
 * long. */
static bool read_pack(const char *path, uint8_t *pack, size_t *length)
{
    FILE *file = fopen(path, "rb");
    if (!file)
        return false;
    *length = fread(pack, 1, CERT_MOST_CELLS + 1, file);
    bool good = !ferror(file);
    int why = errno;
    fclose(file);
    errno = why;
    return good;
}

/* Digits only, and no more than fit. */
static bool read_number(const char *text, uint64_t *number)
{
    if (!*text || text[strspn(text, "0123456789")] != '\0')
        return false;
    errno = 0;
    *number = strtoull(text, NULL, 10);
    return errno == 0;
}

static const struct option *option_of(const char *name)
{
    const struct option *option = options;
    while (option->name && strcmp(option->name, name) != 0)
        option++;
    return option->name ? option : NULL;
}

/* How the host is called, behind what is wrong with this call. */
static int wrong_call(const char *what, const char *why)
{
    fprintf(stderr, "%s: %s%s: %s PACK", program, what, why, program);
    for (const struct option *option = options; option->name; option++)
        fprintf(stderr, " [%s N]", option->name);
    fprintf(stderr, "\n");
    return FAULT;
}

/* The options, and the one pack file, anywhere among them. */
static int read_call(int argc, char **argv, const char **path)
{
    for (int i = 1; i < argc; i++) {
        if (strncmp(argv[i], "--", 2) != 0) {
            if (*path)
                return wrong_call(argv[i], " is a second pack file");
            *path = argv[i];
            continue;
        }
        const struct option *option = option_of(argv[i]);
        if (!option)
            return wrong_call(argv[i], " is no option");
        if (++i == argc || !read_number(argv[i], option->number))
            return wrong_call(option->name, " wants a number from 0 to 2^64 - 1");
    }
    return *path ? ACCEPTED : wrong_call("a pack file is wanted", "");
}

int main(int argc, char **argv)
{
    const char *path = NULL;
    if (read_call(argc, argv, &path) != ACCEPTED)
        return FAULT;
    uint8_t *pack = malloc(CERT_MOST_CELLS + 1);
    if (!pack)
        return fault(path, "out of memory");
    size_t length = 0;
    int status = read_pack(path, pack, &length) ? run(path, pack, length)
                                                : fault(path, strerror(errno));
    free(pack);
    if (fflush(stdout) != 0 || ferror(stdout))
        return fault("standard output", strerror(errno));
    return status;
}
