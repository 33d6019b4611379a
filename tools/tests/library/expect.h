/* What the tests of the library share: a test that doesn't hold is told by its line, and ends the program. */
#ifndef EXPECT_H
#define EXPECT_H

#include "bpfspec.h"
#include <stdio.h>
#include <stdlib.h>
#include <string.h>

#define EXPECT(test)                                                       \
    do {                                                                   \
        if (!(test)) {                                                     \
            fprintf(stderr, "%s:%d: %s\n", __FILE__, __LINE__, #test);     \
            exit(1);                                                       \
        }                                                                  \
    } while (0)

static inline int load(struct bpfspec_machine *machine, const char *text, struct bpfspec_refusal *refusal)
{
    return bpfspec_load(machine, text, strlen(text), refusal);
}

#endif
