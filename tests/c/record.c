/*
 * record SCRIPT [IMAGE]: steps at random, by numbers and by accesses over pages, on an image or on the built-in one, recorded into SCRIPT. Prints
 * 'passed' at the end.
 */
#include <stdio.h>
#include <stdlib.h>

#include "rviommu_record.h"

#define RAM 0x80000000u

static uint64_t state = 1;

static uint64_t below(uint64_t bound) {
    state = state * 6364136223846793005u + 1442695040888963407u;
    return (state >> 33) % bound;
}

static uint8_t image[1 << 16];

static bool is_open(rviommu_t *platform, const char *path) {
    if (path == NULL) {
        return rviommu_open_built_in(platform) == RVIOMMU_OK;
    }
    FILE *file = fopen(path, "rb");
    if (file == NULL) {
        return false;
    }
    size_t length = fread(image, 1, sizeof image, file);
    fclose(file);
    return rviommu_open(image, length, platform) == RVIOMMU_OK;
}

/* Device 5 is led by Sv39 from IOVA 0x40200000 to eight pages of memory. */
static void map(rviommu_t *platform) {
    static const uint64_t words[][2] = {{0x800010a0, 1}, {0x800010b8, 0x8000000000080002}, {0x80002008, 0x20000c01}, {0x80003008, 0x20001001}};
    for (size_t i = 0; i < sizeof words / sizeof *words; i++) {
        rviommu_store(platform, words[i][0], 8, words[i][1]);
    }
    for (uint64_t page = 0; page < 7; page++) {
        rviommu_store(platform, 0x80004000 + 8 * page, 8, (0x80010 + 2 * page) << 10 | 0xd7);
    }
    rviommu_reg_write(platform, 0x10, 8, 0x20000402);
    rviommu_reg_write(platform, 0x18, 8, 0x20008005);
    rviommu_reg_write(platform, 0x48, 4, 1);
    rviommu_reg_write(platform, 0x28, 8, 0x20008405);
    rviommu_reg_write(platform, 0x4c, 4, 3);
}

static void step(rviommu_t *platform) {
    uint8_t bytes[300];
    size_t length = 1 + below(64);
    uint64_t iova = 0x40200000 + below(0x8000);
    memset(bytes, (int)below(256), sizeof bytes);
    switch (below(10)) {
    case 0:
        rviommu_load(platform, RAM + below(0x20000), 8, NULL);
        return;
    case 1:
        rviommu_store(platform, 0x80004000 + 8 * below(8), 8, (0x80010 + below(8)) << 10 | 0xd7);
        return;
    case 2:
        rviommu_reg_read(platform, 4 * below(32), 4, NULL);
        return;
    case 3:
        rviommu_command(platform);
        return;
    case 4:
        rviommu_dev_step(platform, below(2), NULL);
        return;
    case 5:
        rviommu_dma_read(platform, 5 + below(2), iova, bytes, length, NULL);
        return;
    case 6:
        rviommu_dma_write(platform, 5 + below(2), iova, bytes, length, NULL);
        return;
    case 7:
        rviommu_dma_read_all(platform, 5, iova, bytes, sizeof bytes, NULL, NULL);
        return;
    case 8:
        rviommu_dma_write_all(platform, 5, iova, bytes, sizeof bytes, NULL, NULL);
        return;
    default:
        rviommu_dma_write(platform, 5, iova, bytes, 0, NULL);
        rviommu_dma_read(platform, 5, iova, bytes, 65, NULL);
    }
}

int main(int argc, char **argv) {
    rviommu_t platform = {NULL};
    FILE *script = argc > 1 ? fopen(argv[1], "w") : NULL;
    if (script == NULL || !is_open(&platform, argv[2])) {
        return 1;
    }
    struct rviommu_record record = rviommu_record_begin(&platform, script);
    map(&platform);
    bool is_whole = rviommu_record_steps(&record, &platform);
    for (int i = 0; i < 2000 && is_whole; i++) {
        step(&platform);
        is_whole = i % 2 == 0 || rviommu_record_steps(&record, &platform);
    }
    is_whole = is_whole && rviommu_record_steps(&record, &platform) && rviommu_record_steps(&record, &platform);
    for (int i = 0; i < 33; i++) {
        rviommu_command(&platform);
    }
    bool is_lost = !rviommu_record_steps(&record, &platform);
    rviommu_close(&platform);
    puts(fclose(script) == 0 && is_whole && is_lost ? "passed" : "failed");
    return 0;
}
