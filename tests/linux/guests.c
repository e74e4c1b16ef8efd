/* Guests: their interrupt files lie at guest-physical pages, and each message of their devices goes to the file that the MSI page table's entry names. */
#include "lives.h"

enum { GUESTS = 2, LENT = 12 }; /* LENT: how many files the harts have for guests */
static struct guest guests[GUESTS] = {{.id = 1}, {.id = 2, .is_staged = true}};
static bool is_begun;
struct guest_counts guest_done;

bool has_guests(void) { return is_begun; }

/* The page of a file, and the number of the file of a page: the bits where the mask has 1, packed. */
static u64 page_of(const struct guest *guest, u64 number) {
    u64 page = guest->pattern;
    for (u64 left = guest->mask; left; left &= left - 1, number >>= 1)
        if (number & 1)
            page |= left & -left;
    return page;
}
static u64 number_of(const struct guest *guest, u64 page) {
    u64 number = 0, bit = 1;
    for (u64 left = guest->mask; left; left &= left - 1, bit <<= 1)
        if (page & left & -left)
            number |= bit;
    return number;
}
u64 some_file(void) { return page_of(&guests[0], below(guests[0].files)) << PAGE_SHIFT; }

/* Where a device of a guest, or of none, is led at the address that its first stage reaches. */
static struct place place_of(const struct guest *guest, u64 address) {
    u64 page = address >> PAGE_SHIFT;
    if (guest && guest->is_led && !((page ^ guest->pattern) & ~guest->mask))
        return guest->leads[number_of(guest, page)];
    if (!guest || !guest->is_staged)
        return (struct place){.kind = address - BASE < MEMORY ? RAM : NOWHERE, .at = page << PAGE_SHIFT};
    for (int i = 0; i < guest->pages; i++)
        if (guest->mapped[i].page == page)
            return guest->mapped[i].to;
    return (struct place){.kind = NOWHERE, .read_cause = 21, .write_cause = 23};
}

/* What became of a device's write of four bytes. */
struct went { enum rviommu_answer answer; u64 cause, told; u32 value; };

static struct went writes(struct user *user, u64 iova) {
    static u64 known;
    struct went went = {.value = next()};
    publish();
    takes();
    if (guests_told.count != known)
        fails("a message came to a guest's file that no device sent: it is at 0x%llx", (unsigned long long)guests_told.address);
    went.answer = rviommu_dma_write(&model, user->fwspec.ids[0], iova, (const u8 *)&went.value, 4, &went.cause);
    takes();
    went.told = guests_told.count - known, known = guests_told.count, calls++;
    return went;
}
static bool is_there(const struct went *went, const struct place *want, u64 iova) {
    u64 at = want->at + iova % PAGE_SIZE, seen = 0;
    if (want->write_cause)
        return went->answer == RVIOMMU_DENIED && went->cause == want->write_cause && !went->told;
    if (want->kind == FILE_PAGE)
        return went->answer == RVIOMMU_DONE && went->told == 1 && guests_told.address == at && guests_told.value == went->value;
    if (want->kind == NOWHERE)
        return went->answer == RVIOMMU_BUS_ERROR && !went->told;
    return went->answer == RVIOMMU_DONE && !went->told && rviommu_load(&model, at, 4, &seen) == RVIOMMU_VALUE && seen == went->value;
}

/* A device reads four bytes of where it is led. */
static void reads(const struct user *user, u64 iova, const struct place *want) {
    u64 cause = 0;
    u32 value = next(), seen = 0;
    enum rviommu_answer answer;
    bool is_right;
    publish();
    if (want->kind == RAM && !want->read_cause)
        rviommu_store(&model, want->at + iova % PAGE_SIZE, 4, value);
    answer = rviommu_dma_read(&model, user->fwspec.ids[0], iova, (u8 *)&seen, 4, &cause);
    if (want->read_cause)
        is_right = answer == RVIOMMU_DENIED && cause == want->read_cause;
    else
        is_right = want->kind == RAM ? answer == RVIOMMU_BYTES && seen == value : answer == RVIOMMU_BUS_ERROR;
    if (!is_right)
        fails("device 0x%x reads 0x%llx, which leads to 0x%llx: answer %d, cause %llu", user->fwspec.ids[0], (unsigned long long)iova, (unsigned long long)want->at, answer,
              (unsigned long long)cause);
    is_current(user, iova, false);
    calls += 2;
}

/* A device reads and writes four bytes, and goes where it is led. */
void tries(struct user *user, u64 iova, u64 address, bool is_written) {
    struct place want = place_of(user->guest, address);
    if (!is_written)
        want.write_cause = 15;
    iova &= ~3ull;
    reads(user, iova, &want);
    struct went went = writes(user, iova);
    if (!is_there(&went, &want, iova))
        fails("device 0x%x writes 0x%llx, which leads to 0x%llx: answer %d, cause %llu, %llu messages, the last one to 0x%llx", user->fwspec.ids[0],
              (unsigned long long)iova, (unsigned long long)want.at, went.answer, (unsigned long long)went.cause, (unsigned long long)went.told,
              (unsigned long long)guests_told.address);
    is_current(user, iova, true);
    guest_done.told += went.told, guest_done.refused += want.write_cause >= 262;
    guest_done.behind += went.told && user->space >= 0, guest_done.read += want.kind == RAM && !want.read_cause;
}
static void tries_at(struct user *user, u64 address) {
    u64 iova;
    bool is_written;
    if (reaches(user, address, &iova, &is_written))
        tries(user, iova, address, is_written);
}
static void each_at(const struct guest *guest, u64 address) {
    for (struct user *user = users; user < users + WITH_GUESTS; user++)
        if (user->guest == guest)
            tries_at(user, address);
}
/* An address in the page of a file: that of its register, or another one. */
static u64 in_file(const struct guest *guest, u64 number) { return page_of(guest, number) << PAGE_SHIFT | (below(2) ? 4 * below(1024) : 0); }

/* each file, and a page beside each that is none: another bit of its number than those of the mask */
static void all_files(const struct guest *guest) {
    for (int number = 0; number < guest->files; number++) {
        u64 other = 1ull << below(29);
        each_at(guest, in_file(guest, number));
        if (!(guest->mask & other))
            each_at(guest, in_file(guest, number) ^ other << PAGE_SHIFT);
    }
}

/* What an entry may be: it leads to a file that no guest has, or to memory, or it is refused. */
static bool is_lent(u64 at) {
    for (struct guest *guest = guests; guest < guests + GUESTS; guest++)
        for (int number = 0; number < guest->files; number++)
            if (guest->leads[number].kind == FILE_PAGE && guest->leads[number].at == at)
                return true;
    return false;
}
static u64 free_file(void) {
    u64 first = below(LENT);
    for (u64 i = 0; i < LENT; i++) {
        u64 at = guest_file((first + i) % LENT);
        if (at && !is_lent(at))
            return at;
    }
    return 0;
}
static u64 some_data(void) { return BASE + DATA + below((MEMORY - DATA) / PAGE_SIZE) * PAGE_SIZE; }
static struct place refused(u64 cause) { return (struct place){.kind = NOWHERE, .read_cause = cause, .write_cause = cause}; }
static struct place some_place(u64 *word) {
    u64 at = free_file();
    struct place to = {.kind = at && below(4) ? FILE_PAGE : RAM};
    to.at = to.kind == FILE_PAGE ? at : some_data();
    *word = entry_to(some_data());
    switch (below(12)) {
    case 0: *word = next() << 1; return refused(262);       /* V is 0 */
    case 1: *word |= 1ull << 63; return refused(262);       /* C, which is custom */
    case 2: *word &= ~(1ull << 2); return refused(263);     /* M is 1: a memory-resident file, which the machine doesn't have */
    case 3: *word &= below(2) ? ~2ull : ~6ull; return refused(263); /* M is 2 or 0, which are reserved */
    case 4: *word |= 1ull << (below(2) ? 3 + below(7) : 54 + below(9)); return refused(263); /* reserved bits */
    default: *word = entry_to(to.at); return to;
    }
}

/* A file moves, as one of a virtual hart that goes on at another hart: until the invalidation a write may go to the old place. */
static void moves_file(struct guest *guest) {
    int number = below(guest->files);
    u64 word, iova, address = in_file(guest, number);
    bool is_written;
    struct place old = guest->leads[number], new = some_place(&word);
    each_at(guest, address);
    file_is(guest, number, word, next());
    guest->leads[number] = new;
    for (struct user *user = users; user < users + WITH_GUESTS; user++)
        if (user->guest == guest && guest->is_led && below(2) && reaches(user, address, &iova, &is_written) && is_written) {
            struct went went = writes(user, iova);
            if (!is_there(&went, &old, iova) && !is_there(&went, &new, iova))
                fails("device 0x%x writes 0x%llx, whose file moves: answer %d, cause %llu", user->fwspec.ids[0], (unsigned long long)iova, went.answer,
                      (unsigned long long)went.cause);
            guest_done.early += is_there(&went, &old, iova);
        }
    file_is_dropped(guest, address);
    if (old.kind == FILE_PAGE)
        is_let_go(old.at, PAGE_SIZE);
    each_at(guest, address);
    guest_done.moved++;
}

/* A page is mapped in the second stage, or one is unmapped; it may be that of a file, where the MSI page table leads all the same. */
static void changes_page(struct guest *guest) {
    u64 page = below(4) == 0 ? page_of(guest, below(guest->files)) : (below(2) ? 0x80000 : 0x10000000) + below(64);
    int i = 0;
    while (i < guest->pages && guest->mapped[i].page != page)
        i++;
    if (i == GUEST_PAGES || (guest->pages && below(2)))
        i = below(guest->pages), page = guest->mapped[i].page;
    each_at(guest, page << PAGE_SHIFT);
    if (i < guest->pages) {
        page_is(guest, page, 0, false);
        guest->mapped[i] = guest->mapped[--guest->pages];
        page_is_dropped(guest, page);
        guest_done.unmapped++;
    } else {
        bool is_written = below(3);
        guest->mapped[guest->pages].page = page;
        guest->mapped[guest->pages].to = (struct place){.kind = RAM, .at = some_data(), .write_cause = is_written ? 0 : 23};
        page_is(guest, page, guest->mapped[guest->pages++].to.at, is_written);
        guest_done.mapped++;
    }
    each_at(guest, page << PAGE_SHIFT | 4 * below(1024));
}

/* A guest's machine has harts in one or two groups, each hart with one page or more, of which the first is its file's. */
static void is_born(struct guest *guest) {
    static const u64 BASES[] = {0x24000, 0x300000, 0x28000}; /* the last one is also that of the machine's files, which only a second stage hides */
    int harts = 1 + below(3), behind = below(3), groups = below(2);
    guest->pattern = BASES[below(guest->is_staged ? 3 : 2)];
    guest->mask = ((1ull << harts) - 1) << behind | (groups ? 1ull << (12 + below(2)) : 0);
    guest->files = 1 << (harts + groups), guest->pages = 0, guest->is_led = true, guest->levels = 3 + below(2);
    memset(guest->leads, 0, sizeof guest->leads);
    guest_begins(guest);
    for (int number = 0; number < guest->files; number++) {
        u64 word;
        guest->leads[number] = some_place(&word);
        file_is(guest, number, word, next());
    }
}
static void joins(struct user *user, struct guest *guest) {
    context_is(user, guest);
    user->guest = guest;
    guest_done.joined += guest != NULL;
}
static int devices_of(const struct guest *guest) {
    int count = 0;
    for (int i = 0; i < WITH_GUESTS; i++)
        count += users[i].guest == guest;
    return count;
}
static void dies(struct guest *guest) {
    for (struct user *user = users; user < users + WITH_GUESTS; user++)
        if (user->guest == guest)
            joins(user, NULL);
    guest_ends(guest);
    guest->files = 0;
}
static void goes_on(struct guest *guest) {
    struct user *user = &users[below(USERS)];
    if (guest->is_staged && below(2)) {
        dies(guest);
        is_born(guest);
        joins(&users[USERS], guest), joins(&users[USERS + 1], guest);
    } else if (!guest->is_staged) {
        joins(user, user->guest ? NULL : guest);
        for (int number = 0; number < guest->files; number++)
            tries_at(user, in_file(guest, number));
        if (!devices_of(guest) && below(2))
            dies(guest), is_born(guest);
    }
    all_files(guest);
}
/* The MSI page table is turned off, or on: what was a file's page is one as any other. */
static void turns(struct guest *guest) {
    guest->is_led = !guest->is_led;
    for (struct user *user = users; user < users + WITH_GUESTS; user++)
        if (user->guest == guest)
            context_is(user, guest);
    all_files(guest);
}

void guests_begin(void) {
    is_begun = true;
    for (struct guest *guest = guests; guest < guests + GUESTS; guest++)
        is_born(guest);
    joins(&users[USERS], &guests[1]), joins(&users[USERS + 1], &guests[1]);
}
void guests_go_on(void) {
    struct guest *guest = &guests[below(GUESTS)];
    u64 choice = below(16);
    if (choice == 0 || (choice < 3 && !guest->is_led))
        turns(guest);
    else if (choice < 3)
        goes_on(guest);
    else if (choice == 3)
        all_files(guest);
    else if (choice < 8 && guest->is_staged)
        changes_page(guest);
    else
        moves_file(guest);
}
void guests_end(void) {
    for (struct guest *guest = guests; guest < guests + GUESTS; guest++)
        dies(guest);
    is_begun = false;
}
