/*
 * What the example hosts share: each is called with a pack file, hands it to the library
 * and says the answer in words.
 *
 * Exit status: 0 the library answers 0; 1 it refuses the pack, said in one line on standard
 * output with document 01's number and place. 2 a wrong call, a file that can't be read, no
 * memory or no output, said in one line on standard error.
 */
#ifndef HOST_H
#define HOST_H

#include "cert.h"

#include <stdbool.h>
#include <stddef.h>
#include <stdint.h>

enum { ACCEPTED, REFUSED, FAULT };

/* An option with a number behind it, from 0 to 2^64 - 1. */
struct option {
    const char *name;
    uint64_t *number;
};

/* Each host's own: its name, its options up to one without a name, and what it does with a
 * pack; the exit status is answered. */
extern const char program[];
extern const struct option options[];
int run(const char *path, const uint8_t *pack, size_t length);

/* The line of a fault, and of a refusal; the exit status is answered. */
int fault(const char *path, const char *why);
int refused(const char *path, size_t length, uint64_t code, uint64_t place);

/* Buffers by their numbers. One that the call isn't lent has length 0 from the start. */
struct lent {
    void *cells[CERT_TEXT + 1];
    size_t length[CERT_TEXT + 1];
};

/* A call in these buffers; its number and place are answered, all of its answer is kept. */
typedef struct cert_answer in_buffers(const uint8_t *pack, size_t length,
                                      const struct lent *lent, void *answer);

/* The call in buffers that aren't short, if there are such, text of this length first, with
 * the work that they ask for. False if there is no memory for one. */
bool grow(const uint8_t *pack, size_t length, size_t text, in_buffers *call, struct lent *lent,
          void *answer);
void give_back(struct lent *lent);

#endif
