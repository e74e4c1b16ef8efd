/*
 * A small driver for the RISC-V IOMMU, written as Linux's is (drivers/iommu/riscv): it knows readl, readq, writel and writeq, and
 * memory that it shares with the IOMMU. Where these lead, to a device or to the model, is its caller's (struct iommu_port).
 */
#ifndef IOMMU_H
#define IOMMU_H

#include <stdbool.h>
#include <stdint.h>

/* Where the driver's accesses lead. */
struct iommu_port {
    void *to;
    uint32_t (*readl)(void *to, uint64_t offset);
    uint64_t (*readq)(void *to, uint64_t offset);
    void (*writel)(void *to, uint32_t value, uint64_t offset);
    void (*writeq)(void *to, uint64_t value, uint64_t offset);
    uint64_t (*load)(void *to, uint64_t address);               /* a word of shared memory, by its physical address */
    void (*store)(void *to, uint64_t value, uint64_t address);
};

/* What the driver keeps. Pages are taken from `next_page` on. */
struct iommu {
    struct iommu_port port;
    uint64_t capabilities;
    uint64_t next_page;
    uint64_t commands, records, directory;
    uint32_t command_count, record_count;
    uint32_t tail; /* cqt, as it was written last */
};

struct iommu_fault {
    uint32_t cause, did;
    uint64_t iova;
};

/* Probes the IOMMU: its version and its queues, whose base registers are WARL, and a directory of one level. 0, or -1 where
 * something is missing. */
int iommu_probe(struct iommu *iommu, struct iommu_port port, uint64_t first_page);

/* Gives a device an address space with Sv39 in its first stage; answers the root of its tables, a physical address. */
uint64_t iommu_attach(struct iommu *iommu, uint32_t did, uint32_t pscid);

/* Maps a page of 4096 bytes, readable, and writable where it is said. */
void iommu_map(struct iommu *iommu, uint64_t root, uint64_t iova, uint64_t address, bool is_writable);

/* Takes a mapping away; it serves until iommu_flush. */
void iommu_unmap(struct iommu *iommu, uint64_t root, uint64_t iova);

/* Sends IOTINVAL.VMA for a page of an address space, and a fence, and waits for it. -1 where the command queue stopped. */
int iommu_flush(struct iommu *iommu, uint64_t iova, uint32_t pscid);

/* Takes the oldest fault record; false where there is none. */
bool iommu_take_fault(struct iommu *iommu, struct iommu_fault *fault);

#endif
