#include "iommu.h"

enum { CAPS = 0x0, DDTP = 0x10, CQB = 0x18, CQH = 0x20, CQT = 0x24, FQB = 0x28, FQH = 0x30, FQT = 0x34, CQCSR = 0x48, FQCSR = 0x4c, IPSR = 0x54 };

#define PAGE 4096
#define QUEUE_ON (1u << 16)
#define QUEUE_FAULT 0xf00u
#define PTE_VALID 0x01
#define PTE_READ 0x02
#define PTE_WRITE 0x04
#define PTE_USER 0x10
#define PTE_ACCESSED 0x40
#define PTE_DIRTY 0x80
#define FSC_SV39 (8ull << 60)
#define LEAST_COMMANDS 64
#define LEAST_RECORDS 64
#define MOST_POLLS 1000

static uint32_t readl(struct iommu *iommu, uint64_t offset) { return iommu->port.readl(iommu->port.to, offset); }
static uint64_t readq(struct iommu *iommu, uint64_t offset) { return iommu->port.readq(iommu->port.to, offset); }
static void writel(struct iommu *iommu, uint32_t value, uint64_t offset) { iommu->port.writel(iommu->port.to, value, offset); }
static void writeq(struct iommu *iommu, uint64_t value, uint64_t offset) { iommu->port.writeq(iommu->port.to, value, offset); }
static uint64_t load(struct iommu *iommu, uint64_t address) { return iommu->port.load(iommu->port.to, address); }
static void store(struct iommu *iommu, uint64_t value, uint64_t address) { iommu->port.store(iommu->port.to, value, address); }

/* A page of shared memory, all 0. */
static uint64_t take_page(struct iommu *iommu) {
    uint64_t page = iommu->next_page;
    iommu->next_page += PAGE;
    for (uint64_t at = 0; at < PAGE; at += 8) {
        store(iommu, 0, page + at);
    }
    return page;
}

static uint64_t ppn_field(uint64_t address) { return address >> 12 << 10; }

/* Writes the base register of a queue, whose fields are WARL: first the most entries, to learn what there may be, then what is
 * wanted, which must be read back. */
static int set_queue(struct iommu *iommu, uint64_t offset, uint64_t base, uint32_t log2_entries) {
    uint64_t wanted = ppn_field(base) | (log2_entries - 1);
    writeq(iommu, 0x1f, offset);
    if ((readq(iommu, offset) & 0x1f) < log2_entries - 1) {
        return -1;
    }
    writeq(iommu, wanted, offset);
    return readq(iommu, offset) == wanted ? 0 : -1;
}

static int enable_queue(struct iommu *iommu, uint64_t csr, uint32_t pending) {
    writel(iommu, 0x103 | QUEUE_FAULT, csr); /* on, with interrupts; errors of before are cleared */
    for (int polls = 0; polls < MOST_POLLS; polls++) {
        if (readl(iommu, csr) & QUEUE_ON) {
            writel(iommu, pending, IPSR);
            return 0;
        }
    }
    return -1;
}

int iommu_probe(struct iommu *iommu, struct iommu_port port, uint64_t first_page) {
    *iommu = (struct iommu){.port = port, .next_page = first_page, .command_count = LEAST_COMMANDS, .record_count = LEAST_RECORDS};
    iommu->capabilities = readq(iommu, CAPS);
    if ((iommu->capabilities & 0xff) != 0x10 || (iommu->capabilities >> 9 & 1) == 0) {
        return -1; /* version 1.0 with Sv39 is wanted */
    }
    iommu->commands = take_page(iommu);
    iommu->records = take_page(iommu);
    iommu->directory = take_page(iommu);
    if (set_queue(iommu, CQB, iommu->commands, 6) != 0 || set_queue(iommu, FQB, iommu->records, 6) != 0) {
        return -1;
    }
    writel(iommu, 0, CQT);
    writel(iommu, 0, FQH);
    if (enable_queue(iommu, CQCSR, 1) != 0 || enable_queue(iommu, FQCSR, 2) != 0) {
        return -1;
    }
    writeq(iommu, ppn_field(iommu->directory) | 2, DDTP); /* one level */
    return (readq(iommu, DDTP) & 0xf) == 2 ? 0 : -1;
}

/* Puts a command, moves the tail, and waits until the IOMMU has taken it. */
static int send(struct iommu *iommu, uint64_t first, uint64_t second) {
    store(iommu, first, iommu->commands + 16ull * iommu->tail);
    store(iommu, second, iommu->commands + 16ull * iommu->tail + 8);
    iommu->tail = (iommu->tail + 1) % iommu->command_count;
    writel(iommu, iommu->tail, CQT);
    for (int polls = 0; polls < MOST_POLLS; polls++) {
        if (readl(iommu, CQCSR) & QUEUE_FAULT) {
            return -1;
        }
        if (readl(iommu, CQH) == iommu->tail) {
            return 0;
        }
    }
    return -1;
}

uint64_t iommu_attach(struct iommu *iommu, uint32_t did, uint32_t pscid) {
    uint64_t root = take_page(iommu);
    uint64_t context = iommu->directory + 32ull * (did % 128);
    store(iommu, 0, context + 8);                           /* iohgatp: Bare */
    store(iommu, (uint64_t)pscid << 12, context + 16);      /* ta */
    store(iommu, FSC_SV39 | root >> 12, context + 24);      /* fsc */
    store(iommu, 1, context);                               /* tc: valid, last of all */
    send(iommu, 3 | 1ull << 33 | (uint64_t)did << 40, 0);   /* IODIR.INVAL_DDT with DV */
    return root;
}

/* The address of the last-level entry of an IOVA; tables are made where they lack. */
static uint64_t entry_of(struct iommu *iommu, uint64_t root, uint64_t iova) {
    uint64_t table = root;
    for (int level = 2; level > 0; level--) {
        uint64_t at = table + 8 * (iova >> (12 + 9 * level) & 511);
        uint64_t entry = load(iommu, at);
        if ((entry & PTE_VALID) == 0) {
            entry = ppn_field(take_page(iommu)) | PTE_VALID;
            store(iommu, entry, at);
        }
        table = entry >> 10 << 12;
    }
    return table + 8 * (iova >> 12 & 511);
}

void iommu_map(struct iommu *iommu, uint64_t root, uint64_t iova, uint64_t address, bool is_writable) {
    uint64_t bits = PTE_VALID | PTE_READ | PTE_USER | PTE_ACCESSED | (is_writable ? PTE_WRITE | PTE_DIRTY : 0);
    store(iommu, ppn_field(address) | bits, entry_of(iommu, root, iova));
}

void iommu_unmap(struct iommu *iommu, uint64_t root, uint64_t iova) { store(iommu, 0, entry_of(iommu, root, iova)); }

int iommu_flush(struct iommu *iommu, uint64_t iova, uint32_t pscid) {
    uint64_t vma = 1 | 1ull << 10 | (uint64_t)pscid << 12 | 1ull << 32; /* IOTINVAL.VMA with AV and PSCV */
    if (send(iommu, vma, iova >> 12 << 10) != 0) {
        return -1;
    }
    return send(iommu, 2 | 1ull << 12 | 1ull << 13, 0); /* IOFENCE.C with PR and PW */
}

bool iommu_take_fault(struct iommu *iommu, struct iommu_fault *fault) {
    uint32_t head = readl(iommu, FQH);
    if (head == readl(iommu, FQT)) {
        return false;
    }
    uint64_t record = iommu->records + 32ull * head;
    uint64_t first = load(iommu, record);
    *fault = (struct iommu_fault){.cause = first & 0xfff, .did = (uint32_t)(first >> 40), .iova = load(iommu, record + 16)};
    writel(iommu, (head + 1) % iommu->record_count, FQH);
    return true;
}
