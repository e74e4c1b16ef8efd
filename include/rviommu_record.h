/*
 * rviommu_record: writes the steps of a handle as a script, each with its answer, so that `rviommu check`, `debug`, `explain` and the page
 * can replay a test. Run the script on the image that the handle was opened on.
 *
 *     struct rviommu_record record = rviommu_record_begin(&platform, script);   right after opening the handle
 *     rviommu_dma_read(&platform, 5, 0x40201000, bytes, 8, &cause);
 *     rviommu_record_steps(&record, &platform);                                 at least every 32 steps
 */
#ifndef RVIOMMU_RECORD_H
#define RVIOMMU_RECORD_H

#include <inttypes.h>
#include <stdio.h>
#include <string.h>

#include "rviommu.h"

struct rviommu_record {
    FILE *script;
    uint64_t first; /* the number of steps at the beginning */
    uint64_t told;  /* the number of steps when the script was last written */
};

/* Begins a record in an open file. The handle has memory of its own. It was opened or copied, and has had no step since, so its trace is empty. A
 * record has steps only: what rviommu_reset and rviommu_memory_write do isn't in it. */
static inline struct rviommu_record rviommu_record_begin(const rviommu_t *handle, FILE *script) {
    struct rviommu_record record = {script, rviommu_steps(handle), rviommu_steps(handle)};
    return record;
}

/* Writes one line for each step since the last call. Returns false if not all could be written: there were more than the 32 steps that the
 * trace keeps, or writing to the file failed. */
static inline bool rviommu_record_steps(struct rviommu_record *record, rviommu_t *handle) {
    uint64_t now = rviommu_steps(handle), in_trace = now - record->first < 32 ? now - record->first : 32;
    bool is_whole = now - record->told <= in_trace;
    for (uint64_t step = is_whole ? record->told : now - in_trace; step < now; step++) {
        char question[16], text[321], *arrow;
        size_t length;
        int asked = snprintf(question, sizeof question, "trace %" PRIu64, in_trace - (now - step));
        if (rviommu_line(handle, question, (size_t)asked, text, sizeof text, &length) != RVIOMMU_OK) {
            return false;
        }
        arrow = strstr(text, " -> ");
        if (arrow == NULL || fprintf(record->script, "%.*s # => %s\n", (int)(arrow - text), text, arrow + 4) < 0) {
            return false;
        }
    }
    record->told = now;
    return is_whole;
}

#endif
