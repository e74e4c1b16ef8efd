/* What a hypervisor does for a guest beside Linux's driver, of which it is a part here: the contexts of the guest's devices lead to the guest's second stage
 * and to its MSI page table, and the entries of that one to interrupt files. The driver of 7.2 leaves all of it to others, and keeps these words of a
 * context. The order of each change is that of the standard's "Software guidelines". */
#include "iommu.c"
#include "lives.h"

static struct riscv_iommu_device *its_iommu(void) { return dev_to_iommu(&users[0].dev); }

static u64 *new_page(struct guest *guest) { return guest->table[guest->tables++] = iommu_alloc_pages_node_sz(NUMA_NO_NODE, GFP_KERNEL, SZ_4K); }

void guest_begins(struct guest *guest) {
    guest->tables = 0;
    guest->msi = iommu_alloc_pages_node_sz(NUMA_NO_NODE, GFP_KERNEL, SZ_4K);
    guest->root = guest->is_staged ? iommu_alloc_pages_node_sz(NUMA_NO_NODE, GFP_KERNEL, 4 * SZ_4K) : NULL;
}
void guest_ends(struct guest *guest) {
    while (guest->tables)
        iommu_free_pages(guest->table[--guest->tables]);
    iommu_free_pages(guest->root);
    iommu_free_pages(guest->msi);
}

/* A GVMA of a guest: of all its pages, unless an address is set. */
static void is_of_guest(struct riscv_iommu_command *command, u64 id) {
    riscv_iommu_cmd_inval_vma(command);
    command->dword0 |= FIELD_PREP(RISCV_IOMMU_CMD0_FUNC, RISCV_IOMMU_CMD_IOTINVAL_FUNC_GVMA);
    riscv_iommu_cmd_inval_set_gscid(command, id);
}
static void is_sent(struct riscv_iommu_command *command) { riscv_iommu_cmd_send(its_iommu(), command); }
static void is_fenced(void) { riscv_iommu_cmd_sync(its_iommu(), RISCV_IOMMU_IOTINVAL_TIMEOUT); }

/* "Changing device directory table entry". The driver's function sends the VMA, and leaves the GVMA out. */
static void context_is_dropped(const struct user *user, struct riscv_iommu_dc *dc) {
    struct riscv_iommu_command command;
    riscv_iommu_cmd_iodir_inval_ddt(&command);
    riscv_iommu_cmd_iodir_set_did(&command, user->fwspec.ids[0]);
    is_sent(&command);
    riscv_iommu_iodir_iotinval(its_iommu(), false, dc->iohgatp, dc, NULL);
    is_of_guest(&command, FIELD_GET(RISCV_IOMMU_DC_IOHGATP_GSCID, dc->iohgatp));
    is_sent(&command);
    is_fenced();
}
void context_is(struct user *user, const struct guest *guest) {
    struct riscv_iommu_dc *dc = riscv_iommu_get_dc(its_iommu(), user->fwspec.ids[0]);
    u64 tc = READ_ONCE(dc->tc), root = guest && guest->is_staged ? FIELD_PREP(RISCV_IOMMU_DC_IOHGATP_MODE, 5 + guest->levels) |
        FIELD_PREP(RISCV_IOMMU_DC_IOHGATP_PPN, PHYS_PFN(virt_to_phys(guest->root))) : 0;
    is_changed = true;
    WRITE_ONCE(dc->tc, tc & ~RISCV_IOMMU_DC_TC_V);
    context_is_dropped(user, dc);
    dc->iohgatp = guest ? root | FIELD_PREP(RISCV_IOMMU_DC_IOHGATP_GSCID, guest->id) : 0;
    dc->msiptp = guest && guest->is_led ? FIELD_PREP(RISCV_IOMMU_DC_MSIPTP_MODE, RISCV_IOMMU_DC_MSIPTP_MODE_FLAT) |
        FIELD_PREP(RISCV_IOMMU_DC_MSIPTP_PPN, PHYS_PFN(virt_to_phys(guest->msi))) : 0;
    dc->msi_addr_mask = guest ? guest->mask : 0;
    dc->msi_addr_pattern = guest ? guest->pattern : 0;
    dma_wmb();
    is_changed = true;
    WRITE_ONCE(dc->tc, tc);
    context_is_dropped(user, dc);
}

/* An entry in basic mode. */
u64 entry_to(u64 at) { return phys_to_ppn(at) | FIELD_PREP(RISCV_IOMMU_MSIPTE_M, 3) | RISCV_IOMMU_MSIPTE_V; }
void file_is(struct guest *guest, int file, u64 word, u64 second) {
    struct riscv_iommu_msipte *entry = (struct riscv_iommu_msipte *)guest->msi + file;
    is_changed = true;
    WRITE_ONCE(entry->mrif_info, second);
    WRITE_ONCE(entry->pte, word);
}

/* "Changing MSI page table entry": a GVMA of the guest and the file's address. Without a second stage what was translated has no GSCID, and a VMA
 * drops it. */
void file_is_dropped(const struct guest *guest, u64 address) {
    struct riscv_iommu_command command;
    is_of_guest(&command, guest->id);
    riscv_iommu_cmd_inval_set_addr(&command, address);
    is_sent(&command);
    if (!guest->is_staged) {
        riscv_iommu_cmd_inval_vma(&command);
        is_sent(&command);
    }
    is_fenced();
}

/* The leaf of a page in the second stage. */
static u64 *leaf_of(struct guest *guest, u64 page) {
    int shift = 9 * (guest->levels - 1);
    u64 *at = guest->root + (page >> shift);
    while ((shift -= 9) >= 0) {
        if (!*at)
            *at = phys_to_ppn(virt_to_phys(new_page(guest))) | 1;
        at = (u64 *)phys_to_virt(ppn_to_phys(*at)) + (page >> shift & 511);
    }
    return at;
}
void page_is(struct guest *guest, u64 page, u64 at, bool is_written) {
    is_changed = true;
    WRITE_ONCE(*leaf_of(guest, page), at ? phys_to_ppn(at) | (is_written ? 0xd7 : 0x53) : 0);
}
void page_is_dropped(const struct guest *guest, u64 page) {
    struct riscv_iommu_command command;
    is_of_guest(&command, guest->id);
    riscv_iommu_cmd_inval_set_addr(&command, page << PAGE_SHIFT);
    is_sent(&command);
    is_fenced();
}
