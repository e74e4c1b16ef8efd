/* A number that a test wants. */
#ifndef WANT_H
#define WANT_H

#include <inttypes.h>
#include <stdio.h>

static int failed;

static void want(const char *what, uint64_t seen, uint64_t wanted) {
    if (seen != wanted) {
        printf("%s: 0x%" PRIx64 ", wanted 0x%" PRIx64 "\n", what, seen, wanted);
        failed = 1;
    }
}

#endif
