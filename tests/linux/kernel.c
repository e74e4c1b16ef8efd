/* The kernel beneath Linux's driver: pages, ids and resources, and the model's registers. */
#include "kernel.h"
#include <linux/generic_pt/iommu.h>
#include <stdarg.h>

rviommu_t model;
u64 calls, failures, told[4];
bool is_quiet;

static u8 *ram, *shadow; /* what the driver has stored, and what the model was told of it */
static u8 order[PAGES];  /* 1 + the order of the driver's pages that begin here; 0: none */
static struct list_head descriptors[PAGES];
static u8 registers[4096];
static u64 seed, odds; /* odds: a busy register settles at one in so many of the driver's reads */

void begins_by(u64 number) {
    seed = number * 2 + 0x9e3779b97f4a7c15ull;
    odds = 4 << number % 3 * 2;
}
u64 next(void) {
    seed ^= seed << 13, seed ^= seed >> 7, seed ^= seed << 17;
    return seed * 0x2545f4914f6cdd1dull >> 11;
}
u64 below(u64 n) { return next() % n; }

void fails(const char *form, ...) {
    va_list words;
    if (failures++ < 20) {
        va_start(words, form);
        printf("FAILED: ");
        vprintf(form, words);
        printf("\n");
        va_end(words);
    }
}

/* what the driver tells, and where it warns */
void kernel_tells(int level, const struct device *dev, const char *form, ...) {
    va_list words;
    told[level]++;
    if (level < 2 && !is_quiet) {
        va_start(words, form);
        fprintf(stderr, "%s: ", dev_name(dev));
        vfprintf(stderr, form, words);
        va_end(words);
    }
}
void kernel_warns(const char *condition, const char *file, int line) { fails("%s:%d: WARN_ON(%s)", file, line, condition); }

/* memory */
void memory_begins(void) {
    ram = aligned_alloc(PAGE_SIZE, MEMORY), shadow = calloc(1, MEMORY);
    memset(ram, 0, MEMORY);
}
void memory_ends(void) {
    for (u64 page = 0; page < PAGES; page++)
        if (order[page]) {
            fails("the page at 0x%llx wasn't freed", (unsigned long long)(BASE + page * PAGE_SIZE));
            break;
        }
}
phys_addr_t virt_to_phys(const volatile void *at) { return at ? (phys_addr_t)((const volatile u8 *)at - ram) + BASE : 0; }
void *phys_to_virt(phys_addr_t at) { return ram + (at - BASE); }

static bool is_free(u64 first, u64 count) {
    for (u64 page = first; page < first + count; page++)
        if (order[page])
            return false;
    return true;
}
static u64 last_page;

void *iommu_alloc_pages_node_sz(int nid, gfp_t gfp, size_t size) {
    u64 count = roundup_pow_of_two((size + PAGE_SIZE - 1) / PAGE_SIZE);
    for (u64 tries = 0; tries < 2 * PAGES; tries += count) {
        u64 first = last_page = (last_page + count) / count * count % PAGES;
        if (first + count <= PAGES && is_free(first, count)) {
            memset(order + first, 1 + ilog2(count), count);
            memset(ram + first * PAGE_SIZE, 0, count * PAGE_SIZE);
            INIT_LIST_HEAD(&descriptors[first]);
            return ram + first * PAGE_SIZE;
        }
    }
    return NULL;
}
void is_let_go(u64 at, u64 length) {
    struct rviommu_naming naming;
    calls++;
    if (rviommu_may_free(&model, at, length, &naming) == RVIOMMU_NAMED)
        fails("0x%llx is let go, and an IOMMU may hold %llu entries that name it, the oldest read in step %llu, of kind %u", (unsigned long long)at,
              (unsigned long long)naming.count, (unsigned long long)naming.number, naming.kind);
}
void iommu_free_pages(void *at) {
    if (at) {
        u64 first = ((u8 *)at - ram) / PAGE_SIZE, count = 1ull << (order[first] - 1);
        if (!order[first])
            abort();
        is_let_go(BASE + first * PAGE_SIZE, count * PAGE_SIZE);
        memset(ram + first * PAGE_SIZE, 0xff, count * PAGE_SIZE); /* a device that still reads it meets what is no table */
        for (u64 word = first * 512; word < (first + count) * 512; word++)
            rviommu_store(&model, BASE + 8 * word, 8, ~0ull);
        memset(shadow + first * PAGE_SIZE, 0xff, count * PAGE_SIZE);
        memset(order + first, 0, count);
    }
}
void iommu_pages_free_incoherent(void *at, struct device *dev) { iommu_free_pages(at); }
void iommu_pages_stop_incoherent_list(struct iommu_pages_list *list, struct device *dev) {}
int iommu_pages_start_incoherent(void *at, struct device *dev) { return 0; }
int iommu_pages_start_incoherent_list(struct iommu_pages_list *list, struct device *dev) { return 0; }

/* A page's descriptor is found by its address: of `struct ioptdesc` the driver uses the list's member alone. */
#include "../iommu-pages.h"
struct folio *virt_to_folio(const void *at) {
    return (struct folio *)((char *)&descriptors[((const u8 *)at - ram) / PAGE_SIZE] - offsetof(struct ioptdesc, iopt_freelist_elm));
}
void iommu_put_pages_list(struct iommu_pages_list *list) {
    while (!list_empty(&list->pages)) {
        struct list_head *first = list->pages.next;
        list_del(first);
        iommu_free_pages(ram + (first - descriptors) * PAGE_SIZE);
    }
}

/* Stores what the driver changed in its pages, if it may have, into the model's memory. */
bool is_changed = true;
void publish(void) {
    if (!is_changed)
        return;
    is_changed = false;
    for (u64 page = 0; page < PAGES; page++) {
        if (order[page] && memcmp(ram + page * PAGE_SIZE, shadow + page * PAGE_SIZE, PAGE_SIZE)) {
            u64 *new = (u64 *)(ram + page * PAGE_SIZE), *old = (u64 *)(shadow + page * PAGE_SIZE);
            for (u64 word = 0; word < 512; word++)
                if (new[word] != old[word]) {
                    if (rviommu_store(&model, BASE + page * PAGE_SIZE + 8 * word, 8, new[word]) != RVIOMMU_DONE)
                        abort();
                    old[word] = new[word];
                    calls++;
                }
        }
    }
}

void fetch(void) {
    u64 base, tail;
    static u64 last;
    if (rviommu_reg_look(&model, 40, 8, &base) != RVIOMMU_OK || rviommu_reg_look(&model, 52, 4, &tail) != RVIOMMU_OK)
        abort();
    u64 first = (base >> 10 & 0xfffffffffffull) << 12, mask = (2ull << (base & 31)) - 1;
    if (!first)
        return;
    for (last &= mask; last != tail; last = (last + 1) & mask) {
        u64 record[4];
        for (int i = 0; i < 4; i++, calls++)
            if (rviommu_load(&model, first + 32 * last + 8 * i, 8, &record[i]) != RVIOMMU_VALUE)
                abort();
        memcpy(ram + (first + 32 * last - BASE), record, 32), memcpy(shadow + (first + 32 * last - BASE), record, 32);
        if ((record[0] & 0xfff) == 273)
            is_refused(record[2]);
    }
}

/* The registers that may be busy on a machine with delays, and the places whose writes need them idle: "software must verify that busy is 0". */
static const struct { u64 offset, size, busy, held[3]; enum rviommu_register which; } SLOW[] = {
    {16, 8, 1 << 4, {16, 20, 20}, RVIOMMU_DDTP}, {72, 4, 1 << 17, {72, 24, 28}, RVIOMMU_CQCSR}, {76, 4, 1 << 17, {76, 40, 44}, RVIOMMU_FQCSR}};
static bool is_unseen[3]; /* it was written, and no read said since that it isn't busy */
static bool is_lost[3];   /* its last write was lost */
struct busy_counts busy;

static bool is_busy(int i) {
    u64 value;
    if (rviommu_reg_look(&model, SLOW[i].offset, SLOW[i].size, &value) != RVIOMMU_OK)
        abort();
    return value & SLOW[i].busy;
}
static void settles(u64 one_in) {
    for (int i = 0; i < 3; i++)
        if (is_busy(i) && below(one_in) == 0 && (calls++, rviommu_settle(&model, SLOW[i].which) != RVIOMMU_DONE))
            abort();
}
void settles_in(int round) { settles(round < 8 ? odds / 2 : 1); }
/* The driver reads or writes: whether it looks at busy before it writes, and whether the write is lost since the register is busy. */
static void sees(u64 offset, u64 value) {
    for (int i = 0; i < 3; i++)
        is_unseen[i] &= offset != SLOW[i].offset || (value & SLOW[i].busy);
}
static void changes(u64 offset) {
    for (int i = 0; i < 3; i++)
        if (offset == SLOW[i].held[0] || offset == SLOW[i].held[1] || offset == SLOW[i].held[2]) {
            busy.unseen += is_unseen[i], busy.lost += is_busy(i);
            if (offset == SLOW[i].offset)
                is_unseen[i] = true, is_lost[i] = is_busy(i);
        }
}
/* The driver has ended: what of its last writes has yet to act, and what isn't off when all has. */
void settles_at_the_end(void) {
    for (int i = 0; i < 3; i++)
        busy.early += is_busy(i);
    settles(1);
    for (int i = 1; i < 3; i++) {
        u64 value = 0;
        rviommu_reg_look(&model, SLOW[i].offset, SLOW[i].size, &value);
        if (value >> 16 & 1 && !is_lost[i])
            fails("a queue is on at the end: 0x%llx", (unsigned long long)value);
        busy.on += value >> 16 & 1;
    }
}

/* registers: before the driver reads where the command queue stands, the device goes on by some commands */
static void goes_on(u64 offset) {
    settles(odds);
    if (offset == 32 || offset == 72) {
        publish();
        for (u64 count = below(9); count; count--, calls++)
            if (rviommu_command(&model) == RVIOMMU_IDLE)
                break;
    }
    if (offset == 52)
        fetch();
}
static u64 read_at(const volatile void *at, u64 size) {
    u64 value, offset = (const volatile u8 *)at - registers;
    is_changed = true;
    goes_on(offset);
    calls++;
    if (rviommu_reg_read(&model, offset, size, &value) != RVIOMMU_VALUE)
        abort();
    sees(offset, value);
    return value;
}
static void write_at(volatile void *at, u64 size, u64 value) {
    is_changed = true;
    calls++;
    changes((volatile u8 *)at - registers);
    if (rviommu_reg_write(&model, (volatile u8 *)at - registers, size, value) != RVIOMMU_DONE)
        abort();
    if ((volatile u8 *)at - registers >= 768)
        table_is_written();
    if ((volatile u8 *)at - registers == 8)
        fctl_is_written(value);
}
u32 readl_relaxed(const volatile void *at) { return read_at(at, 4); }
u64 readq_relaxed(const volatile void *at) { return read_at(at, 8); }
void writel_relaxed(u32 value, volatile void *at) { write_at(at, 4, value); }
void writeq_relaxed(u64 value, volatile void *at) { write_at(at, 8, value); }
bool time_is_over(u64 *spent, u64 timeout_us) { return ++*spent > 100000; }
void *devm_platform_get_and_ioremap_resource(struct platform_device *device, unsigned int n, struct resource **res) { return registers; }

/* resources, ids */
struct devres { struct devres *next; dr_release_t release; u64 data[]; };
void *devres_alloc(dr_release_t release, size_t size, gfp_t gfp) {
    struct devres *res = calloc(1, sizeof(*res) + size);
    res->release = release;
    return res->data;
}
void devres_add(struct device *dev, void *data) {
    struct devres *res = container_of(data, struct devres, data);
    res->next = dev->resources, dev->resources = res;
}
int devres_release(struct device *dev, dr_release_t release, dr_match_t match, void *data) {
    for (struct devres **at = &dev->resources, *res; (res = *at); at = &res->next)
        if (res->release == release && match(dev, res->data, data)) {
            *at = res->next;
            release(dev, res->data);
            free(res);
            return 0;
        }
    return -ENOENT;
}
void devres_release_all(struct device *dev) {
    for (struct devres *res; (res = dev->resources);) {
        dev->resources = res->next;
        if (res->release)
            res->release(dev, res->data);
        free(res);
    }
}
void *devm_kzalloc(struct device *dev, size_t size, gfp_t gfp) {
    void *data = devres_alloc(NULL, size, gfp);
    devres_add(dev, data);
    return data;
}
int ida_alloc_range(struct ida *ida, unsigned int first, unsigned int last, gfp_t gfp) {
    for (unsigned int id = first; id < 512; id++)
        if (!(ida->used[id / 8] >> id % 8 & 1)) {
            ida->used[id / 8] |= 1 << id % 8;
            return id;
        }
    return -ENOSPC;
}
void ida_free(struct ida *ida, unsigned int id) { ida->used[id / 8] &= ~(1 << id % 8); }

/* the core of the kernel's IOMMU layer */
const struct iommu_ops *ops;
struct iommu_group *generic_device_group(struct device *dev) { return NULL; }
int iommu_fwspec_add_ids(struct device *dev, const u32 *ids, int count) {
    memcpy(dev->fwspec->ids, ids, count * sizeof(*ids));
    dev->fwspec->num_ids = count;
    return 0;
}
int iommu_device_register(struct iommu_device *iommu, const struct iommu_ops *its, struct device *dev) {
    iommu->ops = ops = its, iommu->dev = dev;
    return 0;
}
void iommu_device_unregister(struct iommu_device *iommu) { ops = NULL; }
void iommu_iotlb_sync(struct iommu_domain *domain, struct iommu_iotlb_gather *gather) {
    if (domain->ops->iotlb_sync)
        domain->ops->iotlb_sync(domain, gather);
    iommu_iotlb_gather_init(gather);
}
