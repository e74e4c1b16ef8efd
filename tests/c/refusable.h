/* Allocations that are counted, and of which one can be refused: for a test that is linked with --wrap=malloc and --wrap=realloc. */
#ifndef REFUSABLE_H
#define REFUSABLE_H

#include <stdbool.h>
#include <stddef.h>
#include <stdint.h>

void *__real_malloc(size_t size);
void *__real_realloc(void *old, size_t size);
void *__wrap_malloc(size_t size);
void *__wrap_realloc(void *old, size_t size);

static long allocations;
static long refused = -1; /* how many allocations there are before the one that is refused */
static size_t asked;      /* how many bytes were asked for, all sizes added; it ends at SIZE_MAX */

static bool is_refused(size_t size) {
    allocations++;
    asked = size < SIZE_MAX - asked ? asked + size : SIZE_MAX;
    return refused >= 0 && refused-- == 0;
}

void *__wrap_malloc(size_t size) { return is_refused(size) ? NULL : __real_malloc(size); }

void *__wrap_realloc(void *old, size_t size) { return is_refused(size) ? NULL : __real_realloc(old, size); }

#endif
