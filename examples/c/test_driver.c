/*
 * A test of the driver in iommu.c on the model: the driver's accesses lead to the platform behind a handle, and a device's reads
 * and writes show what the driver's tables, caches and commands let it do.
 */
#include <inttypes.h>
#include <stdio.h>
#include <stdlib.h>

#include "iommu.h"
#include "rviommu.h"

#define RAM 0x80000000u
#define FIRST_PAGE (RAM + 0x40000u)
#define DATA (RAM + 0x10000u)
#define IOVA 0x40201000u
#define DID 5
#define PSCID 7

static int failed;

static void want(const char *what, uint64_t seen, uint64_t wanted) {
    if (seen != wanted) {
        printf("%s is 0x%" PRIx64 ", wanted 0x%" PRIx64 "\n", what, seen, wanted);
        failed = 1;
    }
}

static void must(uint32_t answer, uint32_t wanted) {
    if (answer != wanted) {
        printf("the driver made an access that is answered %" PRIu32 "\n", answer);
        exit(1);
    }
}

static uint64_t read_register(void *to, uint64_t offset, uint64_t size) {
    uint64_t value = 0;
    must(rviommu_reg_read(to, offset, size, &value), RVIOMMU_VALUE);
    return value;
}

static uint32_t readl(void *to, uint64_t offset) { return (uint32_t)read_register(to, offset, 4); }

static uint64_t readq(void *to, uint64_t offset) { return read_register(to, offset, 8); }

/* Writes a register; the IOMMU's command unit then takes all that the driver has put into its queue. */
static void write_register(void *to, uint64_t offset, uint64_t size, uint64_t value) {
    must(rviommu_reg_write(to, offset, size, value), RVIOMMU_DONE);
    while (rviommu_command(to) == RVIOMMU_DONE && (read_register(to, 0x48, 4) & 0xf00) == 0) {
    }
}

static void writel(void *to, uint32_t value, uint64_t offset) { write_register(to, offset, 4, value); }

static void writeq(void *to, uint64_t value, uint64_t offset) { write_register(to, offset, 8, value); }

static uint64_t load(void *to, uint64_t address) {
    uint64_t value = 0;
    must(rviommu_load(to, address, 8, &value), RVIOMMU_VALUE);
    return value;
}

static void store(void *to, uint64_t value, uint64_t address) { must(rviommu_store(to, address, 8, value), RVIOMMU_DONE); }

/* What the device's read and write of a word are answered; a cause of a denial is told in place of the answer. */
static uint64_t reads(rviommu_t *platform, uint64_t iova, uint64_t *word) {
    uint64_t cause = 0;
    uint32_t answer = rviommu_dma_read(platform, DID, iova, (uint8_t *)word, sizeof *word, &cause);
    return answer == RVIOMMU_DENIED ? cause : answer;
}

static uint64_t writes(rviommu_t *platform, uint64_t iova, uint64_t word) {
    uint64_t cause = 0;
    uint32_t answer = rviommu_dma_write(platform, DID, iova, (const uint8_t *)&word, sizeof word, &cause);
    return answer == RVIOMMU_DENIED ? cause : answer;
}

int main(void) {
    rviommu_t platform = {NULL};
    must(rviommu_open_built_in(&platform), RVIOMMU_OK);
    struct iommu_port port = {&platform, readl, readq, writel, writeq, load, store};
    struct iommu iommu;
    struct iommu_fault fault;
    struct rviommu_page_place page;
    uint64_t word = 0;

    want("the probe", (uint64_t)iommu_probe(&iommu, port, FIRST_PAGE), 0);
    want("a fault after the probe", iommu_take_fault(&iommu, &fault), false);
    want("a read without a context", reads(&platform, IOVA, &word), 258); /* DDT entry not valid */
    want("its fault", iommu_take_fault(&iommu, &fault), true);

    uint64_t root = iommu_attach(&iommu, DID, PSCID);
    iommu_map(&iommu, root, IOVA, DATA, false);
    store(&platform, 0x1122334455667788, DATA + 8);
    want("a read of the mapped page", reads(&platform, IOVA + 8, &word), RVIOMMU_BYTES);
    want("what it read", word, 0x1122334455667788);
    want("what is cached of it", rviommu_page(&platform, 0, &page), RVIOMMU_LIVE);
    want("its PSCID", page.pscid, PSCID);
    want("its frame", page.frame, DATA >> 12);

    want("a write of a page without W", writes(&platform, IOVA, 1), 15); /* store or AMO page fault */
    want("its fault", iommu_take_fault(&iommu, &fault), true);
    want("the fault's cause", fault.cause, 15);
    want("the fault's device", fault.did, DID);
    want("the fault's IOVA", fault.iova, IOVA);

    iommu_map(&iommu, root, IOVA, DATA, true);
    want("a write of a page with W", writes(&platform, IOVA, 0x99), RVIOMMU_DONE);
    want("what it wrote", load(&platform, DATA), 0x99);

    iommu_unmap(&iommu, root, IOVA);
    want("a read before the flush, by what is cached", reads(&platform, IOVA, &word), RVIOMMU_BYTES);
    want("the flush", (uint64_t)iommu_flush(&iommu, IOVA, PSCID), 0);
    want("a read after the flush", reads(&platform, IOVA, &word), 13); /* load page fault */
    want("its fault", iommu_take_fault(&iommu, &fault), true);
    want("a fault more", iommu_take_fault(&iommu, &fault), false);

    rviommu_close(&platform);
    printf(failed ? "failed\n" : "passed\n");
    return failed;
}
