/* Plays lives of Linux's driver over the C library: it is probed, its devices get domains, pages are mapped, read, written and unmapped, and it is
 * removed. After each flush each mapped page leads where the driver put it, each unmapped one is denied, and nothing of it is stale.
 *
 *   lives IMAGE SEED OPERATIONS [quiet] [bare] [every]
 *
 * With `bare` the firmware has left ddtp in mode Bare. With `every` nothing is owed to any IOMMU, whatever it keeps in its caches.
 *
 * Prints one line: what was done, and how many failures there were, each with a line of its own. */
#include "lives.h"
#include <linux/generic_pt/iommu.h>

extern struct platform_driver *const kernel_driver;

/* what a life has: devices, and domains with their mappings */
struct mapping { u64 iova, length, at; int prot; bool is_going; };
struct space {
    struct iommu_domain *domain;
    struct mapping mappings[64];
    int count;
    struct iommu_iotlb_gather going; /* what was unmapped lazily, up to the next flush */
};
static const u32 IDS[] = {5, 0x7f, 0x1234, 0xabcdef, 0x3f, 0xabcdee};
static struct platform_device iommu = {.dev = {.name = "iommu"}, .irqs = 4};
static struct fwnode_handle node;
struct user users[WITH_GUESTS];
static struct space spaces[3];
static struct { u64 maps, unmaps, lazy, attached, read, written, denied, released, freed, refused; } done;

static bool is_written_in(const struct mapping *it) { return it->prot & IOMMU_WRITE; }
static bool is_mapped_at(const struct mapping *it, u64 address) { return it->at <= address && address - it->at < it->length && !it->is_going; }

bool reaches(const struct user *user, u64 address, u64 *iova, bool *is_written) {
    *iova = address, *is_written = true;
    for (int i = 0; user->space >= 0 && i < spaces[user->space].count; i++) {
        const struct mapping *it = &spaces[user->space].mappings[i];
        if (is_mapped_at(it, address)) {
            *iova = it->iova + (address - it->at), *is_written = is_written_in(it);
            return true;
        }
    }
    return user->space == IDENTITY;
}

void is_current(const struct user *user, u64 iova, bool is_write) {
    struct rviommu_way way;
    struct rviommu_unsettled elsewhere;
    if (rviommu_stale(&model, user->fwspec.ids[0], iova, is_write, &way) == RVIOMMU_STALE)
        fails("device 0x%x: where 0x%llx leads is stale", user->fwspec.ids[0], (unsigned long long)iova);
    if (rviommu_settled(&model, user->fwspec.ids[0], iova, is_write, &elsewhere) == RVIOMMU_UNSETTLED)
        fails("device 0x%x: an IOMMU may lead 0x%llx elsewhere, by what it read in step %llu of %llu", user->fwspec.ids[0], (unsigned long long)iova,
              (unsigned long long)elsewhere.number, (unsigned long long)rviommu_steps(&model));
    calls += 2;
}

static void access_one(struct user *user, const struct mapping *it, u64 offset) {
    u64 iova = it->iova + offset, at = it->at + offset, value = next() << 20 ^ next(), seen = 0, cause = 0;
    if (at - BASE >= MEMORY) {
        tries(user, iova, at, is_written_in(it));
        return;
    }
    publish();
    offset &= ~7ull, iova &= ~7ull, at &= ~7ull;
    rviommu_store(&model, at, 8, value);
    enum rviommu_answer answer = rviommu_dma_read(&model, user->fwspec.ids[0], iova, (u8 *)&seen, 8, &cause);
    if (answer != RVIOMMU_BYTES || seen != value)
        fails("device 0x%x reads 0x%llx, which is at 0x%llx: answer %d, cause %llu", user->fwspec.ids[0], (unsigned long long)iova, (unsigned long long)at, answer,
              (unsigned long long)cause);
    is_current(user, iova, false);
    value = ~value;
    answer = rviommu_dma_write(&model, user->fwspec.ids[0], iova, (u8 *)&value, 8, &cause);
    if (is_written_in(it)) {
        if (answer != RVIOMMU_DONE || rviommu_load(&model, at, 8, &seen) != RVIOMMU_VALUE || seen != value)
            fails("device 0x%x writes 0x%llx, which is at 0x%llx: answer %d, cause %llu", user->fwspec.ids[0], (unsigned long long)iova, (unsigned long long)at,
                  answer, (unsigned long long)cause);
    } else if (answer != RVIOMMU_DENIED || cause != 15)
        fails("device 0x%x writes 0x%llx, which is read-only: answer %d, cause %llu", user->fwspec.ids[0], (unsigned long long)iova, answer, (unsigned long long)cause);
    is_current(user, iova, true);
    done.read++, done.written++, calls += 4;
}
static void denied_one(struct user *user, u64 iova, u64 want) {
    u64 seen, cause = 0;
    publish();
    enum rviommu_answer answer = rviommu_dma_read(&model, user->fwspec.ids[0], iova & ~7ull, (u8 *)&seen, 8, &cause);
    if (answer != RVIOMMU_DENIED || cause != want)
        fails("device 0x%x reads 0x%llx, which isn't mapped: answer %d, cause %llu", user->fwspec.ids[0], (unsigned long long)iova, answer, (unsigned long long)cause);
    is_current(user, iova & ~7ull, false);
    done.denied++, calls++;
}

/* some pages of a mapping, its first and its last among them */
static void each_user(int space, const struct mapping *it, bool is_mapped) {
    for (struct user *user = users; user < users + USERS; user++)
        if (user->space == space)
            for (int i = 0; i < 10; i++) {
                u64 offset = i == 0 ? 0 : i == 1 ? it->length - 8 : below(it->length);
                if (is_mapped)
                    access_one(user, it, offset);
                else
                    denied_one(user, it->iova + offset, 13);
            }
}
static void all_of(int n) {
    for (int i = 0; i < spaces[n].count; i++)
        if (!spaces[n].mappings[i].is_going)
            each_user(n, &spaces[n].mappings[i], true);
}

/* the operations */
static bool meets(const struct space *space, u64 iova, u64 length) {
    for (int i = 0; i < space->count; i++)
        if (iova < space->mappings[i].iova + space->mappings[i].length && space->mappings[i].iova < iova + length)
            return true;
    return false;
}
static u64 some_iova(const struct space *space, u64 align, u64 length) {
    const struct iommu_domain_geometry *room = &space->domain->geometry;
    u64 half = room->aperture_end & 1ull << 63 ? ~0ull >> 1 : room->aperture_end;
    u64 from = below(3) == 0 ? (half - (64ull << 20)) & ~(align - 1) : below(2) * (1ull << 30);
    u64 iova = (from + below(32ull << 20)) & ~(align - 1);
    return iova + length - 1 > half ? 0x100000 : iova;
}
static void map(int n) {
    static const u64 LENGTHS[] = {0x1000, 0x3000, 0x10000, 0x11000, 0x20000, 0x1f000, 0x200000, 0x210000, 0x5000};
    struct space *space = &spaces[n];
    if (!space->domain || space->count == 64)
        return;
    u64 length = LENGTHS[below(9)], align = below(3) == 0 ? 0x1000 : length >= 0x200000 ? 0x200000 : 0x10000;
    u64 iova = some_iova(space, align, length);
    int segments = below(4) == 0 ? 3 : 1; /* as map_sg does: one segment behind the other */
    int prot = IOMMU_CACHE | (below(3) ? IOMMU_READ | IOMMU_WRITE : IOMMU_READ);
    for (; segments && space->count < 64; segments--, iova += length) {
        u64 at = has_guests() && below(4) == 0 ? some_file() & ~(align - 1) : BASE + DATA + (below(DATA - length) & ~(align - 1));
        size_t mapped = 0;
        struct pt_iommu *table = iommupt_from_domain(space->domain);
        if (meets(space, iova, length) || iova + length - 1 > space->domain->geometry.aperture_end)
            return;
        int error = table->ops->map_range(table, iova, at, length, prot, GFP_KERNEL, &mapped);
        is_changed = true;
        if (error || mapped != length) {
            fails("map 0x%llx 0x%llx: %d", (unsigned long long)iova, (unsigned long long)length, error);
            return;
        }
        space->mappings[space->count++] = (struct mapping){iova, length, at, prot, false};
        if (space->domain->ops->iova_to_phys(space->domain, iova + length - 1) != at + length - 1)
            fails("iova_to_phys of 0x%llx", (unsigned long long)iova);
        each_user(n, &space->mappings[space->count - 1], true);
        done.maps++;
    }
}
static void flush(int n) {
    struct space *space = &spaces[n];
    if (!space->domain)
        return;
    space->domain->ops->flush_iotlb_all(space->domain);
    iommu_put_pages_list(&space->going.freelist);
    iommu_iotlb_gather_init(&space->going);
    for (int i = 0; i < space->count;)
        if (space->mappings[i].is_going) {
            each_user(n, &space->mappings[i], false);
            space->mappings[i] = space->mappings[--space->count];
        } else
            i++;
    all_of(n);
}
static void unmap(int n, bool is_lazy) {
    struct space *space = &spaces[n];
    if (!space->domain || !space->count)
        return;
    int i = below(space->count);
    struct mapping it = space->mappings[i];
    struct iommu_iotlb_gather gather;
    struct pt_iommu *table = iommupt_from_domain(space->domain);
    if (it.is_going)
        return;
    each_user(n, &it, true);
    iommu_iotlb_gather_init(&gather);
    is_changed = true;
    if (is_lazy) {
        gather.queued = true;
        if (table->ops->unmap_range(table, it.iova, it.length, &gather) != it.length)
            fails("unmap 0x%llx", (unsigned long long)it.iova);
        list_splice(&gather.freelist.pages, &space->going.freelist.pages);
        space->mappings[i].is_going = true;
        done.lazy++;
        return;
    }
    if (table->ops->unmap_range(table, it.iova, it.length, &gather) != it.length)
        fails("unmap 0x%llx", (unsigned long long)it.iova);
    iommu_iotlb_sync(space->domain, &gather);
    space->mappings[i] = space->mappings[--space->count];
    each_user(n, &it, false);
    done.unmaps++;
    if (below(8) == 0)
        all_of(n);
}
static struct iommu_domain *domain_of(int space) {
    return space == IDENTITY ? ops->identity_domain : space < 0 ? ops->blocked_domain : spaces[space].domain;
}
static void attach(struct user *user, int space) {
    if (user->space == RELEASED || !domain_of(space))
        return;
    int error = domain_of(space)->ops->attach_dev(domain_of(space), &user->dev, domain_of(user->space));
    if (error) {
        fails("attach: %d", error);
        return;
    }
    user->space = space;
    done.attached++, is_changed = true;
    if (space == BLOCKED)
        denied_one(user, 0x1000, 258);
    else if (space == IDENTITY)
        access_one(user, &(struct mapping){BASE + DATA, 0x1000, BASE + DATA, IOMMU_READ | IOMMU_WRITE, false}, below(0x1000));
    else
        all_of(space);
}
static void let_go(struct user *user) {
    if (user->space == RELEASED) {
        struct iommu_device *its = ops->probe_device(&user->dev);
        if (IS_ERR(its)) {
            fails("probe of a device: %ld", PTR_ERR(its));
            return;
        }
        user->dev.iommu = its, is_changed = true;
        user->space = BLOCKED;
        return;
    }
    attach(user, BLOCKED);
    ops->release_device(&user->dev);
    user->space = RELEASED;
    denied_one(user, 0x1000, 258);
    done.released++;
}
static void drop(int n) {
    struct space *space = &spaces[n];
    for (int i = 0; i < USERS; i++)
        if (users[i].space == n)
            attach(&users[i], below(2) ? BLOCKED : IDENTITY);
    if (space->domain) {
        flush(n);
        space->domain->ops->free(space->domain);
        done.freed++;
    }
    space->domain = NULL, space->count = 0;
}
static bool is_offered(int bit) {
    u64 capabilities = 0;
    rviommu_reg_look(&model, 0, 8, &capabilities);
    return capabilities >> bit & 1;
}
enum { SVPBMT = 15, MSI_FLAT = 22 };
static void make(int n) {
    struct space *space = &spaces[n];
    struct user *user = &users[below(USERS)];
    if (space->domain || user->space == RELEASED)
        return;
    struct iommu_domain *made = ops->domain_alloc_paging(&user->dev);
    if (is_offered(SVPBMT) && IS_ERR(made) && PTR_ERR(made) == -EOPNOTSUPP) { /* the page tables of 7.2 don't support it */
        done.refused++;
        return;
    }
    if (IS_ERR(made)) {
        fails("no paging domain: %ld", PTR_ERR(made));
        return;
    }
    space->domain = made, space->count = 0;
    iommu_iotlb_gather_init(&space->going);
}
/* many denials before the fault queue is looked at: it wraps, or overflows */
static void storm(void) {
    struct user *user = &users[below(USERS)];
    u64 seen, cause;
    for (u64 count = below(200); user->space != IDENTITY && count; count--, calls++)
        rviommu_dma_read(&model, user->fwspec.ids[0], below(1ull << 30) * 0x1000 | 0x8000000000ull, (u8 *)&seen, 8, &cause);
}
static void one(void) {
    int n = below(3);
    switch (below(20)) {
    case 0: case 1: attach(&users[below(USERS)], (int)below(3)); break;
    case 2: attach(&users[below(USERS)], below(2) ? BLOCKED : IDENTITY); break;
    case 3: let_go(&users[below(USERS)]); break;
    case 4: if (below(6) == 0) drop(n); break;
    case 5: make(n); break;
    case 6: flush(n); break;
    case 7: storm(); break;
    case 8: case 9: case 10: unmap(n, true); break;
    case 11: case 12: case 13: case 14: unmap(n, false); break;
    default: map(n);
    }
}
static bool is_bare, is_every;
static bool begins(const char *path) {
    static u8 image[1 << 16];
    FILE *file = fopen(path, "rb");
    size_t length = file ? fread(image, 1, sizeof image, file) : 0;
    if (file)
        fclose(file);
    enum rviommu_status status = rviommu_open(image, length, &model);
    u64 words[4] = {0};
    memcpy(words, image, sizeof words);
    if (image[7] == '4' && words[2] >> 8 & 1)
        has_files(words[3]);
    if (status != RVIOMMU_OK) {
        fails("the image is refused: %d", status);
        return false;
    }
    if (rviommu_keep_reasons(&model, 0, true) != RVIOMMU_OK || rviommu_keep_holdings(&model, is_every) != RVIOMMU_OK)
        abort();
    if (is_bare && rviommu_reg_write(&model, 16, 8, 1) != RVIOMMU_DONE)
        abort();
    memory_begins();
    node.dev = &iommu.dev;
    int error = kernel_driver->probe(&iommu);
    if (error) {
        fails("probe: %d", error);
        return false;
    }
    for (int i = 0; i < (is_offered(MSI_FLAT) ? WITH_GUESTS : USERS); i++) {
        users[i].dev.name = "device", users[i].dev.fwspec = &users[i].fwspec;
        users[i].fwspec.iommu_fwnode = &node;
        ops->of_xlate(&users[i].dev, &(struct of_phandle_args){.args_count = 1, .args = {IDS[i]}});
        users[i].space = RELEASED;
        let_go(&users[i]);
        attach(&users[i], i < USERS ? BLOCKED : IDENTITY);
    }
    if (is_offered(MSI_FLAT))
        guests_begin();
    return true;
}
static void ends(bool is_shutdown) {
    for (int n = 0; n < 3; n++)
        drop(n);
    if (has_guests())
        guests_end();
    for (int i = 0; i < WITH_GUESTS; i++)
        if (users[i].dev.iommu && users[i].space != RELEASED)
            let_go(&users[i]);
    interrupts();
    if (is_shutdown) {
        kernel_driver->shutdown(&iommu);
        settles_at_the_end();
        rviommu_keep_holdings(&model, false); /* it invalidates nothing, and frees nothing */
        access_one(&users[0], &(struct mapping){BASE + DATA, 0x1000, BASE + DATA, IOMMU_READ | IOMMU_WRITE, false}, 0);
    } else {
        kernel_driver->remove(&iommu);
        settles_at_the_end();
        denied_one(&users[0], BASE + DATA, 256);
    }
    devres_release_all(&iommu.dev);
    memory_ends();
}

/* Prints what was done, what the driver did to busy registers, and what it told. */
static void tells(void) {
    const struct { u64 count; const char *what; } counts[] = {
        {calls, "calls"}, {done.maps, "maps"}, {done.unmaps, "unmaps"}, {done.lazy, "lazy"}, {done.attached, "attached"}, {done.read, "read"},
        {done.denied, "denied"}, {done.released, "released"}, {done.freed, "domains freed"}, {done.refused, "refused"},
        {busy.unseen, "writes without a look at busy"}, {busy.lost, "lost writes"}, {busy.early, "registers busy at the end"},
        {busy.on, "queues left on"}, {messages.dispatched, "messages"}, {messages.moved, "interrupts moved"}, {messages.stray, "stray messages"},
        {messages.refused, "refused messages"}, {messages.lost, "lost interrupts"},
        {messages.ignored, "ignored writes of fctl"}, {guest_done.joined, "guests' devices"}, {guest_done.moved, "files moved"},
        {guest_done.early, "old places before the invalidation"}, {guest_done.told, "messages to guests"}, {guest_done.behind, "behind a first stage"},
        {guest_done.refused, "refused at files"}, {guest_done.read, "read in guests"}, {guest_done.mapped, "pages of guests mapped"},
        {guest_done.unmapped, "pages unmapped"}, {told[0], "errors told"}, {told[1], "warnings told"}};
    for (size_t i = 0; i < sizeof counts / sizeof *counts; i++)
        printf("%llu %s, ", (unsigned long long)counts[i].count, counts[i].what);
    printf("%llu failures\n", (unsigned long long)failures);
}

int main(int count, char **words) {
    if (count < 4)
        return 2;
    begins_by(strtoull(words[2], NULL, 0));
    for (char **word = words + 4; *word; word++)
        is_quiet |= !strcmp(*word, "quiet"), is_bare |= !strcmp(*word, "bare"), is_every |= !strcmp(*word, "every");
    u64 most = strtoull(words[3], NULL, 0);
    if (begins(words[1])) {
        for (u64 step = 0; step < most && failures < 20; step++) {
            one();
            if (has_guests() && below(8) == 0)
                guests_go_on();
            if (has_messages() && below(8) == 0)
                moves();
            if (below(4) == 0)
                interrupts();
        }
        ends(below(2));
        if (most >= 1000 && !done.refused && (!done.unmaps || !done.lazy || !done.freed || (has_messages() && !messages.dispatched && !messages.ignored)))
            fails("too little was done");
        if (most >= 1000 && is_offered(MSI_FLAT) && (!guest_done.early || !guest_done.refused || !guest_done.unmapped || (guest_file(0) && !guest_done.told)))
            fails("too little was done for guests");
        if (messages.ignored && !is_bare)
            fails("a write of fctl was ignored");
    }
    tells();
    return failures != 0;
}
