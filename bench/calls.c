/*
 * Calls a second of the C library, and of plain C functions of the same arguments that do nothing: register reads, and reads of 8 bytes by
 * a device whose page is cached. Beside them translations of that page, in front of the handle's own memory and of lent memory, and
 * register reads and translations if no reasons are kept. Each is measured five times, and the best counts.
 */
#include <stdio.h>
#include <stdlib.h>
#include <time.h>

#include "nothing.h"
#include "rviommu.h"

#define CALLS 2000000
#define TIMES 5

typedef uint32_t reg_read(rviommu_t *handle, uint64_t offset, uint64_t size, uint64_t *value);
typedef uint32_t dma_read(rviommu_t *handle, uint64_t did, uint64_t iova, uint8_t *bytes, size_t length, uint64_t *cause);

static double now(void) {
    struct timespec time;
    timespec_get(&time, TIME_UTC);
    return (double)time.tv_sec + 1e-9 * (double)time.tv_nsec;
}

static void must(uint32_t answer, uint32_t wanted) {
    if (answer != wanted) {
        fprintf(stderr, "calls: %u in place of %u\n", answer, wanted);
        exit(1);
    }
}

static double reads_of_registers(reg_read *call, rviommu_t *platform) {
    uint64_t value = 0;
    double start = now();
    for (int i = 0; i < CALLS; i++) {
        must(call(platform, 0, 8, &value), RVIOMMU_VALUE);
    }
    return CALLS / (now() - start);
}

static double reads_of_a_device(dma_read *call, rviommu_t *platform) {
    uint8_t bytes[8];
    uint64_t cause = 0;
    double start = now();
    for (int i = 0; i < CALLS; i++) {
        must(call(platform, 5, 0x40201000 + 8 * (uint64_t)(i % 512), bytes, sizeof bytes, &cause), RVIOMMU_BYTES);
    }
    return CALLS / (now() - start);
}

static double translations(rviommu_t *platform, uint64_t *words, size_t count) {
    uint64_t address = 0;
    double start = now();
    for (int i = 0; i < CALLS; i++) {
        must(rviommu_translate_lent(platform, words, count, 5, 0x40201000 + 8 * (uint64_t)(i % 512), false, &address), RVIOMMU_VALUE);
    }
    return CALLS / (now() - start);
}

static double best(double one, double other) { return one > other ? one : other; }

static const uint64_t tables[][2] = {{0x800010a0, 1}, {0x800010b8, 0x8000000000080002}, {0x80002008, 0x20000c01}, {0x80003008, 0x20001001}, {0x80004008, 0x200040d7}};

#define COUNT (0x100000 / 8)
static uint64_t words[COUNT];

/* Translations beside register reads, of handles that keep reasons or not. */
static void print_translations(const char *how, rviommu_t *platform, rviommu_t *lent) {
    double registers = 0, own = 0, other = 0;
    for (int i = 0; i < TIMES; i++) {
        registers = best(registers, reads_of_registers(rviommu_reg_read, platform));
        own = best(own, translations(platform, words, 0));
        other = best(other, translations(lent, words, COUNT));
    }
    printf("%-20s %12.0f calls a second, of lent memory %12.0f, beside %12.0f register reads: %s\n", "rviommu_translate", own, other, registers, how);
}

int main(void) {
    rviommu_t platform = {NULL}, lent = {NULL};
    double registers = 0, device = 0, plain_registers = 0, plain_device = 0;
    must(rviommu_open_built_in(&platform), RVIOMMU_OK);
    must(rviommu_open_lent(0x80000000, sizeof words, &lent), RVIOMMU_OK);
    must(rviommu_reg_write(&platform, 16, 8, 0x20000402), RVIOMMU_DONE);
    must(rviommu_reg_write_lent(&lent, words, COUNT, 16, 8, 0x20000402), RVIOMMU_DONE);
    for (size_t i = 0; i < sizeof tables / sizeof *tables; i++) {
        must(rviommu_store(&platform, tables[i][0], 8, tables[i][1]), RVIOMMU_DONE);
        words[(tables[i][0] - 0x80000000) / 8] = tables[i][1];
    }
    for (int i = 0; i < TIMES; i++) {
        registers = best(registers, reads_of_registers(rviommu_reg_read, &platform));
        plain_registers = best(plain_registers, reads_of_registers(nothing_read, &platform));
        device = best(device, reads_of_a_device(rviommu_dma_read, &platform));
        plain_device = best(plain_device, reads_of_a_device(nothing_dma, &platform));
    }
    printf("%-20s %12.0f calls a second, a function that does nothing %12.0f\n", "rviommu_reg_read", registers, plain_registers);
    printf("%-20s %12.0f calls a second, a function that does nothing %12.0f\n", "rviommu_dma_read", device, plain_device);
    print_translations("reasons kept", &platform, &lent);
    must(rviommu_keep_reasons(&platform, 0, true), RVIOMMU_OK);
    must(rviommu_keep_reasons(&lent, 0, true), RVIOMMU_OK);
    print_translations("none kept", &platform, &lent);
    rviommu_close(&platform);
    rviommu_close(&lent);
    return 0;
}
