/* What the driver of Linux asks of the kernel around it, in user space: one processor, no interrupt while it runs. Each header of the kernel that it
 * includes stands for this one. */
#ifndef STUBS_H
#define STUBS_H

#include <errno.h>
#include <limits.h>
#include <stdbool.h>
#include <stddef.h>
#include <stdint.h>
#include <stdio.h>
#include <stdlib.h>
#include <string.h>

typedef uint8_t u8;
typedef uint16_t u16;
typedef uint32_t u32;
typedef uint64_t u64;
typedef int64_t s64;
typedef u64 phys_addr_t, dma_addr_t;
typedef unsigned int gfp_t;
typedef unsigned long pgoff_t;
typedef int irqreturn_t;
typedef irqreturn_t (*irq_handler_t)(int irq, void *data);
typedef struct { int counter; } atomic_t;
typedef struct { int locked; } spinlock_t;
typedef spinlock_t raw_spinlock_t;

#define __iomem
#undef __always_inline
#define __always_inline inline __attribute__((always_inline))
#define __maybe_unused __attribute__((unused))
#define fallthrough __attribute__((fallthrough))
#define likely(x) __builtin_expect(!!(x), 1)
#define unlikely(x) __builtin_expect(!!(x), 0)
#define static_assert _Static_assert
#define BUILD_BUG_ON(condition) _Static_assert(!(condition), #condition)
#define BUILD_BUG_ON_ZERO(e) ((int)sizeof(struct { int : (-!!(e)); }))
#define WARN_ON(condition) ({ bool _c = !!(condition); if (_c) kernel_warns(#condition, __FILE__, __LINE__); _c; })
#define WARN_ON_ONCE WARN_ON
#define U8_MAX UINT8_MAX
#define U32_MAX UINT32_MAX
#define U64_MAX UINT64_MAX
#define BITS_PER_LONG 64
#define BITS_PER_LONG_LONG 64
#define BITS_PER_TYPE(type) (sizeof(type) * 8)
#define BIT(n) (1UL << (n))
#define BIT_ULL(n) (1ULL << (n))
#define BIT_U64(n) (1ULL << (n))
#define GENMASK(high, low) ((~0UL << (low)) & (~0UL >> (63 - (high))))
#define GENMASK_ULL GENMASK
#define FIELD_SHIFT(mask) __builtin_ctzll(mask)
#define FIELD_PREP(mask, value) (((u64)(value) << FIELD_SHIFT(mask)) & (mask))
#define FIELD_GET(mask, word) (((word) & (mask)) >> FIELD_SHIFT(mask))
#define SZ_4K 0x1000UL
#define SZ_64K 0x10000UL
#define PAGE_SHIFT 12
#define PAGE_SIZE SZ_4K
#define PHYS_PFN(at) ((u64)(at) >> PAGE_SHIFT)
#define PFN_PHYS(frame) ((phys_addr_t)(frame) << PAGE_SHIFT)
#define min(a, b) ({ __typeof__(a) _a = (a); __typeof__(b) _b = (b); _a < (__typeof__(_a))_b ? _a : (__typeof__(_a))_b; })
#define max(a, b) ({ __typeof__(a) _a = (a); __typeof__(b) _b = (b); _a > (__typeof__(_a))_b ? _a : (__typeof__(_a))_b; })
#define max3(a, b, c) max(max(a, b), c)
#define min_t(type, a, b) min((type)(a), (type)(b))
#define max_t(type, a, b) max((type)(a), (type)(b))
#define container_of(at, type, member) ((type *)((char *)(at) - offsetof(type, member)))
#define container_of_const(at, type, member) \
    _Generic(at, const __typeof__(((type *)0)->member) *: (const type *)((const char *)(at) - offsetof(type, member)), \
             default: (type *)((char *)(at) - offsetof(type, member)))
#define check_add_overflow(a, b, sum) __builtin_add_overflow(a, b, sum)
#define memset_after(object, value, member) \
    memset((char *)(object) + offsetof(__typeof__(*(object)), member) + sizeof((object)->member), value, \
           sizeof(*(object)) - offsetof(__typeof__(*(object)), member) - sizeof((object)->member))
#define struct_size(at, member, count) (sizeof(*(at)) + sizeof((at)->member[0]) * (count))
#define ilog2(n) ((n) < 2 ? 0 : 63 - __builtin_clzll((u64)(n)))
#define is_power_of_2(n) ((n) != 0 && ((n) & ((n) - 1)) == 0)
#define roundup_pow_of_two(n) ((n) < 2 ? 1UL : 1UL << (64 - __builtin_clzll((u64)(n) - 1)))
#define round_up(n, to) ((((n) - 1) | ((__typeof__(n))(to) - 1)) + 1)
#define ALIGN(n, to) round_up(n, to)
#define __stringify_1(x...) #x
#define __stringify(x...) __stringify_1(x)
#undef __CONCAT
#define __CONCAT(a, b) a ## b
#define CONCATENATE(a, b) __CONCAT(a, b)

static inline int fls64(u64 x) { return x ? 64 - __builtin_clzll(x) : 0; }
static inline int fls(unsigned int x) { return x ? 32 - __builtin_clz(x) : 0; }
static inline unsigned long __ffs(unsigned long x) { return __builtin_ctzl(x); }
static inline unsigned long __ffs64(u64 x) { return __builtin_ctzll(x); }
static inline unsigned long __fls(unsigned long x) { return 63 - __builtin_clzl(x); }
static inline unsigned long ffz(unsigned long x) { return __builtin_ctzl(~x); }
static inline int ffs64(u64 x) { return __builtin_ffsll(x); }

/* IS_ENABLED of what isn't set is 0. */
#define CONFIG_IOMMU_PT 1
#define __ARG_PLACEHOLDER_1 0,
#define __take_second(ignored, value, ...) value
#define __is_defined_3(junk) __take_second(junk 1, 0)
#define __is_defined_2(value) __is_defined_3(__ARG_PLACEHOLDER_##value)
#define IS_ENABLED(option) __is_defined_2(option)

#define READ_ONCE(x) (*(const volatile __typeof__(x) *)&(x))
#define WRITE_ONCE(x, value) (*(volatile __typeof__(x) *)&(x) = (value))
#define smp_mb() __atomic_thread_fence(__ATOMIC_SEQ_CST)
#define dma_wmb() __atomic_thread_fence(__ATOMIC_SEQ_CST)
#define cmpxchg(at, old, new) __sync_val_compare_and_swap(at, old, new)
#define cmpxchg_relaxed cmpxchg
#define try_cmpxchg(at, old, new) \
    ({ __typeof__(*(old)) _o = *(old), _s = __sync_val_compare_and_swap(at, _o, new); *(old) = _s; _s == _o; })
#define try_cmpxchg64 try_cmpxchg
#define try_cmpxchg64_release try_cmpxchg
#define try_cmpxchg_release try_cmpxchg
#define atomic_read(at) ((at)->counter)
#define atomic_set(at, n) ((at)->counter = (n))
#define atomic_add_return(n, at) ((at)->counter += (n))
#define atomic_add(n, at) ((void)((at)->counter += (n)))
#define spin_lock_init(lock) ((lock)->locked = 0)
#define raw_spin_lock_init spin_lock_init
static inline void spin_lock(spinlock_t *lock) { if (lock->locked++) abort(); }
static inline void spin_unlock(spinlock_t *lock) { lock->locked--; }
#define spin_lock_irqsave(lock, flags) ((void)((flags) = 0), spin_lock(lock))
#define spin_unlock_irqrestore(lock, flags) ((void)(flags), spin_unlock(lock))
#define raw_spin_lock_irqsave spin_lock_irqsave
#define raw_spin_unlock_irqrestore spin_unlock_irqrestore
#define rcu_read_lock() ((void)0)
#define rcu_read_unlock() ((void)0)
struct rcu_head { void *next; };
#define kfree_rcu(at, member) free(at)
#define kfree_rcu_mightsleep(at) free(at)
#define kfree free
#define kzalloc_obj(object) calloc(1, sizeof(object))

struct list_head { struct list_head *next, *prev; };
static inline void INIT_LIST_HEAD(struct list_head *list) { list->next = list->prev = list; }
#define INIT_LIST_HEAD_RCU INIT_LIST_HEAD
static inline void list_add_between(struct list_head *new, struct list_head *prev, struct list_head *next) {
    next->prev = new, new->next = next, new->prev = prev, prev->next = new;
}
static inline void list_add_rcu(struct list_head *new, struct list_head *head) { list_add_between(new, head, head->next); }
static inline void list_add_tail(struct list_head *new, struct list_head *head) { list_add_between(new, head->prev, head); }
static inline void list_del(struct list_head *it) { it->next->prev = it->prev, it->prev->next = it->next; }
#define list_del_rcu list_del
static inline bool list_empty(const struct list_head *head) { return head->next == head; }
static inline void list_splice(struct list_head *list, struct list_head *head) {
    if (!list_empty(list)) {
        list->next->prev = head, list->prev->next = head->next, head->next->prev = list->prev, head->next = list->next;
    }
}
#define list_entry container_of
#define list_for_each(at, head) for (at = (head)->next; at != (head); at = at->next)
#define list_for_each_entry(at, head, member) \
    for (at = list_entry((head)->next, __typeof__(*at), member); &at->member != (head); at = list_entry(at->member.next, __typeof__(*at), member))
#define list_for_each_entry_rcu list_for_each_entry

#define GFP_KERNEL 1u
#define GFP_ATOMIC 2u
#define GFP_KERNEL_ACCOUNT 1u
#define NUMA_NO_NODE (-1)
#define IS_ERR(at) ((unsigned long)(at) >= (unsigned long)-4095)
#define IS_ERR_OR_NULL(at) (!(at) || IS_ERR(at))
#define PTR_ERR(at) ((long)(at))
#define ERR_PTR(error) ((void *)(long)(error))

/* devices */
struct fwnode_handle { struct device *dev; };
struct iommu_fwspec { struct fwnode_handle *iommu_fwnode; unsigned int num_ids; u32 ids[4]; };
struct device {
    const char *name;
    struct fwnode_handle *fwnode;
    void *data, *priv;
    struct iommu_fwspec *fwspec;
    struct iommu_device *iommu;
    struct devres *resources;
};
static inline const char *dev_name(const struct device *dev) { return dev->name; }
static inline void *dev_get_drvdata(const struct device *dev) { return dev->data; }
static inline void dev_set_drvdata(struct device *dev, void *data) { dev->data = data; }
static inline int dev_to_node(struct device *dev) { return NUMA_NO_NODE; }
#define dev_fwnode(dev) ((dev)->fwnode)
void kernel_tells(int level, const struct device *dev, const char *form, ...) __attribute__((format(printf, 3, 4)));
void kernel_warns(const char *condition, const char *file, int line);
#define dev_err(dev, ...) kernel_tells(0, dev, __VA_ARGS__)
#define dev_err_once dev_err
#define dev_warn(dev, ...) kernel_tells(1, dev, __VA_ARGS__)
#define dev_warn_ratelimited dev_warn
#define dev_info(dev, ...) kernel_tells(2, dev, __VA_ARGS__)
#define dev_dbg(dev, ...) kernel_tells(3, dev, __VA_ARGS__)
#define dev_err_probe(dev, error, ...) (kernel_tells(0, dev, __VA_ARGS__), error)
typedef void (*dr_release_t)(struct device *dev, void *res);
typedef int (*dr_match_t)(struct device *dev, void *res, void *data);
void *devres_alloc(dr_release_t release, size_t size, gfp_t gfp);
void devres_add(struct device *dev, void *res);
int devres_release(struct device *dev, dr_release_t release, dr_match_t match, void *data);
void devres_release_all(struct device *dev);
void *devm_kzalloc(struct device *dev, size_t size, gfp_t gfp);
static inline void *devm_ioremap(struct device *dev, phys_addr_t at, size_t size) { return NULL; }

/* ids */
struct ida { u8 used[64]; };
#define DEFINE_IDA(name) struct ida name
int ida_alloc_range(struct ida *ida, unsigned int first, unsigned int last, gfp_t gfp);
void ida_free(struct ida *ida, unsigned int id);

/* memory: that of the model, where the driver's pages stand at the same place behind `ram` */
struct page;
struct folio;
phys_addr_t virt_to_phys(const volatile void *at);
void *phys_to_virt(phys_addr_t at);
#define __pa virt_to_phys
#define __va phys_to_virt
struct folio *virt_to_folio(const void *at);

/* registers */
u32 readl_relaxed(const volatile void *at);
u64 readq_relaxed(const volatile void *at);
void writel_relaxed(u32 value, volatile void *at);
void writeq_relaxed(u64 value, volatile void *at);
bool time_is_over(u64 *spent, u64 timeout_us);
#define readx_poll_timeout(op, addr, val, cond, sleep_us, timeout_us) ({ \
    u64 _spent = 0; \
    for (;;) { (val) = op(addr); if (cond) break; if (time_is_over(&_spent, timeout_us)) { (val) = op(addr); break; } } \
    (cond) ? 0 : -ETIMEDOUT; })

/* interrupts */
#define IRQ_NONE 0
#define IRQ_HANDLED 1
#define IRQ_WAKE_THREAD 2
#define IRQF_ONESHOT 1
#define IRQF_SHARED 2
int request_threaded_irq(unsigned int irq, irq_handler_t hard, irq_handler_t thread, unsigned long flags, const char *name, void *data);
void free_irq(unsigned int irq, void *data);

/* buses */
struct resource { u64 start, end; };
struct of_device_id { const char *compatible; };
struct acpi_device_id { const char *id; unsigned long data; };
struct platform_device { struct device dev; int irqs; };
struct device_driver { const char *name; const struct of_device_id *of_match_table; bool suppress_bind_attrs; const struct acpi_device_id *acpi_match_table; };
struct platform_driver {
    int (*probe)(struct platform_device *);
    void (*remove)(struct platform_device *);
    void (*shutdown)(struct platform_device *);
    struct device_driver driver;
};
#define builtin_platform_driver(name) struct platform_driver *const kernel_driver = &name
#define MODULE_DEVICE_TABLE(bus, name) struct kernel_unused
#define MODULE_IMPORT_NS(name) struct kernel_unused
#define MODULE_DESCRIPTION(name) struct kernel_unused
#define MODULE_LICENSE(name) struct kernel_unused
#define EXPORT_SYMBOL_NS_GPL(name, space) struct kernel_unused
#define EXPORT_SYMBOL_GPL(name) struct kernel_unused
void *devm_platform_get_and_ioremap_resource(struct platform_device *device, unsigned int n, struct resource **res);
static inline int platform_irq_count(struct platform_device *device) { return device->irqs; }
static inline int platform_get_irq(struct platform_device *device, unsigned int n) { return 1 + n; }
struct msi_desc { struct device *dev; u16 msi_index; };
struct msi_msg { u32 address_lo, address_hi, data; };
struct irq_domain;
struct device_node;
#define msi_desc_to_dev(desc) ((desc)->dev)
#define is_of_node(node) true
#define to_of_node(node) ((struct device_node *)(node))
#define of_msi_configure(dev, node) ((void)0)
#define irq_find_matching_fwnode(node, token) ((struct irq_domain *)NULL)
#define imsic_acpi_get_fwnode(dev) NULL
#define DOMAIN_BUS_PLATFORM_MSI 0
#define dev_set_msi_domain(dev, domain) ((void)(domain))
struct irq_domain *kernel_msi_domain(void);
#define dev_get_msi_domain(dev) kernel_msi_domain()
typedef void (*msi_writer)(struct msi_desc *desc, struct msi_msg *message);
int platform_device_msi_init_and_alloc_irqs(struct device *dev, unsigned int count, msi_writer write);
void platform_device_msi_free_irqs_all(struct device *dev);
unsigned int msi_get_virq(struct device *dev, unsigned int vector);
#define acpi_disabled true
#define rimt_iommu_register(dev) 0
#define is_kdump_kernel() false
#define dev_is_pci(dev) false
#define pci_device_group(dev) NULL
struct of_phandle_args { int args_count; u32 args[4]; };

/* IOMMUs */
#define IOMMU_READ 1
#define IOMMU_WRITE 2
#define IOMMU_CACHE 4
#define IOMMU_NOEXEC 8
#define IOMMU_MMIO 16
#define IOMMU_DOMAIN_BLOCKED 0
#define IOMMU_DOMAIN_IDENTITY 4
#define __IOMMU_DOMAIN_PAGING 1
struct iommu_pages_list { struct list_head pages; };
#define IOMMU_PAGES_LIST_INIT(name) ((struct iommu_pages_list){ .pages = { &(name).pages, &(name).pages } })
struct iommu_iotlb_gather {
    unsigned long start, end;
    union {
        size_t pgsize;
        struct { u8 leaf_levels_bitmap, table_levels_bitmap; } pt;
    };
    struct iommu_pages_list freelist;
    bool queued;
};
struct iommu_domain_geometry { dma_addr_t aperture_start, aperture_end; bool force_aperture; };
struct iommu_domain {
    unsigned type;
    bool is_iommupt;
    const struct iommu_domain_ops *ops;
    const struct iommu_dirty_ops *dirty_ops;
    unsigned long pgsize_bitmap;
    struct iommu_domain_geometry geometry;
};
struct iommu_dirty_bitmap { void *bitmap; struct iommu_iotlb_gather *gather; };
#define IOMMU_DIRTY_NO_CLEAR 1
static inline void iommu_dirty_bitmap_record(struct iommu_dirty_bitmap *dirty, unsigned long iova, unsigned long length) {}
#define iova_bitmap_set(bitmap, iova, length) ((void)0)
struct iommu_domain_ops {
    int (*attach_dev)(struct iommu_domain *domain, struct device *dev, struct iommu_domain *old);
    phys_addr_t (*iova_to_phys)(struct iommu_domain *domain, dma_addr_t iova);
    void (*free)(struct iommu_domain *domain);
    void (*iotlb_sync)(struct iommu_domain *domain, struct iommu_iotlb_gather *gather);
    void (*flush_iotlb_all)(struct iommu_domain *domain);
    int (*map_pages)(struct iommu_domain *domain, unsigned long iova, phys_addr_t paddr, size_t size, size_t count, int prot, gfp_t gfp, size_t *mapped);
    size_t (*unmap_pages)(struct iommu_domain *domain, unsigned long iova, size_t size, size_t count, struct iommu_iotlb_gather *gather);
};
struct iommu_group { int unused; };
struct iommu_ops {
    int (*of_xlate)(struct device *dev, const struct of_phandle_args *args);
    struct iommu_domain *identity_domain, *blocked_domain, *release_domain;
    struct iommu_domain *(*domain_alloc_paging)(struct device *dev);
    struct iommu_group *(*device_group)(struct device *dev);
    struct iommu_device *(*probe_device)(struct device *dev);
    void (*release_device)(struct device *dev);
};
struct iommu_device { const struct iommu_ops *ops; struct device *dev; };
#define iommu_get_iommu_dev(device, type, member) container_of((device)->iommu, type, member)
static inline struct iommu_fwspec *dev_iommu_fwspec_get(struct device *dev) { return dev->fwspec; }
static inline void *dev_iommu_priv_get(struct device *dev) { return dev->priv; }
static inline void dev_iommu_priv_set(struct device *dev, void *priv) { dev->priv = priv; }
struct iommu_group *generic_device_group(struct device *dev);
int iommu_fwspec_add_ids(struct device *dev, const u32 *ids, int count);
int iommu_device_register(struct iommu_device *iommu, const struct iommu_ops *ops, struct device *dev);
void iommu_device_unregister(struct iommu_device *iommu);
#define iommu_device_sysfs_add(iommu, ...) 0
#define iommu_device_sysfs_remove(iommu) ((void)0)
static inline void iommu_iotlb_gather_init(struct iommu_iotlb_gather *gather) {
    *gather = (struct iommu_iotlb_gather){ .start = ULONG_MAX, .freelist = IOMMU_PAGES_LIST_INIT(gather->freelist) };
}
void iommu_iotlb_sync(struct iommu_domain *domain, struct iommu_iotlb_gather *gather);
static inline bool iommu_iotlb_gather_is_disjoint(struct iommu_iotlb_gather *gather, unsigned long iova, size_t size) {
    return gather->end != 0 && (iova + size < gather->start || iova > gather->end + 1);
}
static inline void iommu_iotlb_gather_add_range(struct iommu_iotlb_gather *gather, unsigned long iova, size_t size) {
    if (gather->start > iova)
        gather->start = iova;
    if (gather->end < iova + size - 1)
        gather->end = iova + size - 1;
}
static inline bool iommu_iotlb_gather_queued(struct iommu_iotlb_gather *gather) { return gather && gather->queued; }
static inline void iommu_iotlb_gather_add_page(struct iommu_domain *domain, struct iommu_iotlb_gather *gather, unsigned long iova, size_t size) {
    if ((gather->pgsize && gather->pgsize != size) || iommu_iotlb_gather_is_disjoint(gather, iova, size))
        iommu_iotlb_sync(domain, gather);
    gather->pgsize = size;
    iommu_iotlb_gather_add_range(gather, iova, size);
}
#define DMA_TO_DEVICE 1
static inline void dma_sync_single_for_device(struct device *dev, dma_addr_t at, size_t size, int direction) {}

#endif
