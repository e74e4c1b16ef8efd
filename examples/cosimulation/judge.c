/* Judges the events of bench.sv as they happen, by the C library. Verilator compiles it as C++. */
#include <stdio.h>
#include <stdlib.h>
#include <string.h>

#include "rviommu.h"

#ifdef __cplusplus
extern "C" {
#endif
void judge_open(void);
void judge_line(const char *line);
#ifdef __cplusplus
}
#endif

static rviommu_judge_t judge;

static void end(void) { rviommu_judge_close(&judge); }

/* The IOMMU begins after reset, with 1 MiB of memory at 0x80000000 that is 0. */
void judge_open(void) {
    rviommu_t platform = {NULL};
    if (rviommu_open_built_in(&platform) != RVIOMMU_OK || rviommu_judge_open(&platform, false, &judge) != RVIOMMU_OK) {
        fputs("out of memory\n", stderr);
        exit(1);
    }
    rviommu_close(&platform);
    atexit(end);
}

/* Judges an event with what was seen of it. Ends the simulation if it isn't allowed, and prints why. */
void judge_line(const char *line) {
    char report[1024];
    enum rviommu_status status = rviommu_judge_line(&judge, line, strlen(line), report, sizeof report, NULL);
    if (status != RVIOMMU_OK) {
        fputs(status == RVIOMMU_OUT_OF_MEMORY ? "out of memory\n" : report, stdout);
        exit(1);
    }
}
