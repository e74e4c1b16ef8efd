// SPDX-License-Identifier: GPL-2.0
/*
 * A kernel module for `make boot`: gives QEMU's device `edu` paging domains by the kernel's own iommu_map, iommu_unmap and
 * iommu_attach_device, and lets the device read and write through them, and send messages. Each test prints one line,
 * `paging: NAME ok` or `paging: NAME failed: WHY`, and the last line counts them.
 */
#include <linux/delay.h>
#include <linux/gfp.h>
#include <linux/interrupt.h>
#include <linux/io-64-nonatomic-lo-hi.h>
#include <linux/iommu.h>
#include <linux/kernel.h>
#include <linux/ktime.h>
#include <linux/module.h>
#include <linux/of_address.h>
#include <linux/pci.h>
#include <linux/sizes.h>

/* The device `edu`: its ids, its registers, its buffer (QEMU's docs/specs/edu.rst). */
#define EDU_VENDOR 0x1234
#define EDU_DEVICE 0x11e8
#define EDU_RAISE 0x60
#define EDU_ACKNOWLEDGE 0x64
#define EDU_SOURCE 0x80
#define EDU_TARGET 0x88
#define EDU_COUNT 0x90
#define EDU_COMMAND 0x98
#define EDU_START 1
#define EDU_TO_MEMORY 2
#define EDU_BUFFER 0x40000

#define READ_WRITE (IOMMU_READ | IOMMU_WRITE)
#define FIRST_IOVA 0x10000000UL
#define ROUNDS 2000
#define ROUNDS_TO_AN_ACCESS 200

/* The IOMMU's registers, and its extended contexts: eight words, of which three say where messages go ("Extended-format device-context"). */
#define CAPABILITIES 0x0
#define HAS_MSI_FLAT BIT_ULL(22)
#define DDTP 0x10
#define MODES 15
#define CONTEXT_WORDS 8
#define MSIPTP 4
#define MASK 5
#define PATTERN 6
#define FLAT BIT_ULL(60)
/* The MSI page table that the tests make, for four interrupt files where the machine has nothing; one of its entries leads to the machine's. */
#define FIRST_FILE 0x2c000UL
#define FILES 4
#define GOOD_FILE 1
#define INVALID_FILE 2
#define LEADS_TO(page) (7 | (page) << 10)

static struct pci_dev *edu;
static void __iomem *registers;
static struct iommu_domain *domain;
static struct page *pages;     /* 64 KiB, aligned */
static struct page *other;     /* one page */
static u32 last_value = 0x1000;
static unsigned int passed, failed, accesses;
static atomic_t messages;      /* those of the device that arrived */

static unsigned long rounds = ROUNDS;
module_param(rounds, ulong, 0444);
MODULE_PARM_DESC(rounds, "how many times a page is mapped and unmapped");

static bool owes;
module_param(owes, bool, 0444);
MODULE_PARM_DESC(owes, "only leaves out the flush of a page, and keeps the device attached");

static u32 *word_of(struct page *page, unsigned long offset)
{
	return (u32 *)((char *)page_address(page) + offset);
}

static phys_addr_t place_of(struct page *page)
{
	return page_to_phys(page);
}

/* The device moves 4 bytes between its buffer and an IOVA. Returns false if it doesn't end. */
static bool edu_moves(u64 iova, bool to_memory)
{
	int turn;

	writeq(to_memory ? EDU_BUFFER : iova, registers + EDU_SOURCE);
	writeq(to_memory ? iova : EDU_BUFFER, registers + EDU_TARGET);
	writeq(4, registers + EDU_COUNT);
	writeq(EDU_START | (to_memory ? EDU_TO_MEMORY : 0), registers + EDU_COMMAND);
	accesses++;
	for (turn = 0; turn < 5000; turn++) {
		if (!(readq(registers + EDU_COMMAND) & EDU_START))
			return true;
		usleep_range(1000, 2000);
	}
	return false;
}

/* Whether the device reads a word of memory at an IOVA, and writes it back 4 bytes later. */
static bool leads(u64 iova, struct page *page, unsigned long offset)
{
	u32 value = ++last_value;

	WRITE_ONCE(*word_of(page, offset), value);
	WRITE_ONCE(*word_of(page, offset + 4), 0);
	mb();
	if (!edu_moves(iova + offset, false) || !edu_moves(iova + offset + 4, true))
		return false;
	mb();
	return READ_ONCE(*word_of(page, offset + 4)) == value;
}

/* Whether the device's write at an IOVA leaves a word of memory as it is. */
static bool write_is_refused(u64 iova, struct page *page, unsigned long offset)
{
	u32 value = ++last_value;

	WRITE_ONCE(*word_of(page, offset), value);
	mb();
	if (!edu_moves(iova + offset, true))
		return false;
	mb();
	return READ_ONCE(*word_of(page, offset)) == value;
}

/*
 * Whether the device's read at an IOVA doesn't bring a word of memory. The device then writes its buffer at the IOVA `good`, which leads to
 * `good_page`.
 */
static bool read_is_refused(u64 iova, struct page *page, unsigned long offset, u64 good, struct page *good_page)
{
	u32 value = ++last_value;

	WRITE_ONCE(*word_of(page, offset), value);
	mb();
	if (!edu_moves(iova + offset, false) || !edu_moves(good, true))
		return false;
	mb();
	return READ_ONCE(*word_of(good_page, 0)) != value;
}

static int map(u64 iova, phys_addr_t place, size_t size, int kind)
{
	return iommu_map(domain, iova, place, size, kind, GFP_KERNEL);
}

static bool unmap(u64 iova, size_t size)
{
	return iommu_unmap(domain, iova, size) == size;
}

static void judge(const char *name, const char *why)
{
	if (why) {
		failed++;
		pr_info("paging: %s failed: %s\n", name, why);
	} else {
		passed++;
		pr_info("paging: %s ok\n", name);
	}
}

/* Each test returns the name of a fault, or NULL. It begins and ends with nothing mapped. */

static const char *test_map(void)
{
	const char *why = NULL;
	int page;

	for (page = 0; page < 4; page++)
		if (map(FIRST_IOVA + page * SZ_4K, place_of(pages + page), SZ_4K, READ_WRITE))
			return "iommu_map";
	for (page = 0; page < 4; page++)
		if (!leads(FIRST_IOVA + page * SZ_4K, pages + page, 0x128))
			why = "a page isn't led to its frame";
	if (iommu_iova_to_phys(domain, FIRST_IOVA + SZ_4K) != place_of(pages + 1))
		why = "iommu_iova_to_phys";
	return unmap(FIRST_IOVA, 4 * SZ_4K) ? why : "iommu_unmap";
}

static const char *test_unmap(void)
{
	const char *why = NULL;

	if (map(FIRST_IOVA, place_of(pages), SZ_4K, READ_WRITE) || map(FIRST_IOVA + SZ_4K, place_of(other), SZ_4K, READ_WRITE))
		return "iommu_map";
	if (!leads(FIRST_IOVA, pages, 0))
		why = "the page isn't led to its frame";
	if (!unmap(FIRST_IOVA, SZ_4K))
		why = "iommu_unmap";
	if (!read_is_refused(FIRST_IOVA, pages, 0x10, FIRST_IOVA + SZ_4K, other))
		why = "the device still reads an unmapped page";
	if (!write_is_refused(FIRST_IOVA, pages, 0))
		why = "the device still writes an unmapped page";
	return unmap(FIRST_IOVA + SZ_4K, SZ_4K) ? why : "iommu_unmap";
}

static const char *test_read_only(void)
{
	const char *why = NULL;

	if (map(FIRST_IOVA, place_of(pages), SZ_4K, IOMMU_READ) || map(FIRST_IOVA + SZ_4K, place_of(other), SZ_4K, READ_WRITE))
		return "iommu_map";
	WRITE_ONCE(*word_of(pages, 0x40), ++last_value);
	mb();
	if (!edu_moves(FIRST_IOVA + 0x40, false) || !edu_moves(FIRST_IOVA + SZ_4K, true) || READ_ONCE(*word_of(other, 0)) != last_value)
		why = "a read-only page isn't read";
	if (!write_is_refused(FIRST_IOVA, pages, 0x80))
		why = "a read-only page is written";
	return unmap(FIRST_IOVA, 2 * SZ_4K) ? why : "iommu_unmap";
}

static const char *test_remap(void)
{
	const char *why = NULL;

	if (map(FIRST_IOVA, place_of(pages), SZ_4K, READ_WRITE))
		return "iommu_map";
	if (!leads(FIRST_IOVA, pages, 0x200))
		why = "the first frame isn't reached";
	if (!unmap(FIRST_IOVA, SZ_4K) || map(FIRST_IOVA, place_of(other), SZ_4K, READ_WRITE))
		return "a page can't be mapped again";
	if (!leads(FIRST_IOVA, other, 0x200))
		why = "the second frame isn't reached";
	return unmap(FIRST_IOVA, SZ_4K) ? why : "iommu_unmap";
}

/* A leaf of this size over the frames around `pages`, and the device at two of its pages. */
static const char *of_size(size_t size)
{
	u64 offset = place_of(pages) & (size - 1);
	const char *why = NULL;

	if (map(16 * (u64)size, place_of(pages) - offset, size, READ_WRITE))
		return "iommu_map";
	if (!leads(16 * (u64)size + offset, pages, 0x300) || !leads(16 * (u64)size + offset + SZ_4K, pages + 1, 0x304))
		why = "the device isn't led to the frame";
	return unmap(16 * (u64)size, size) ? why : "iommu_unmap";
}

static const char *test_superpage(void)
{
	return of_size(SZ_2M);
}

static const char *test_gigapage(void)
{
	return of_size(SZ_1G);
}

static const char *test_64_kib(void)
{
	const char *why = NULL;
	int page;

	if (map(FIRST_IOVA, place_of(pages), SZ_64K, READ_WRITE))
		return "iommu_map";
	for (page = 0; page < 16; page += 5)
		if (!leads(FIRST_IOVA + page * SZ_4K, pages + page, 0x408))
			why = "a page of the 64 KiB isn't led to its frame";
	return unmap(FIRST_IOVA, SZ_64K) ? why : "iommu_unmap";
}

static const char *test_rounds(void)
{
	unsigned long round;

	for (round = 0; round < rounds; round++) {
		u64 iova = FIRST_IOVA + (round % 512) * SZ_4K;

		if (map(iova, place_of(pages + round % 16), SZ_4K, READ_WRITE))
			return "iommu_map";
		if (round % ROUNDS_TO_AN_ACCESS == 0 && !leads(iova, pages + round % 16, 0x500))
			return "a page isn't led to its frame";
		if (!unmap(iova, SZ_4K))
			return "iommu_unmap";
		if (round % ROUNDS_TO_AN_ACCESS == 0 && !write_is_refused(iova, pages + round % 16, 0x500))
			return "the device still writes an unmapped page";
	}
	return NULL;
}

/* The flush after an unmap is left out, so the device's IOMMU may still have the page; here it must, since nothing else was used. */
static const char *test_no_flush(void)
{
	struct iommu_iotlb_gather gather;
	const char *why = NULL;

	if (map(FIRST_IOVA, place_of(pages), SZ_4K, READ_WRITE))
		return "iommu_map";
	if (!leads(FIRST_IOVA, pages, 0x600))
		why = "the page isn't led to its frame";
	iommu_iotlb_gather_init(&gather);
	if (iommu_unmap_fast(domain, FIRST_IOVA, SZ_4K, &gather) != SZ_4K)
		return "iommu_unmap_fast";
	if (!leads(FIRST_IOVA, pages, 0x600))
		why = "the page wasn't cached";
	iommu_iotlb_sync(domain, &gather);
	return write_is_refused(FIRST_IOVA, pages, 0x600) ? why : "the device still writes a flushed page";
}

static const char *test_second_domain(void)
{
	struct iommu_domain *first = domain, *second = iommu_paging_domain_alloc(&edu->dev);
	const char *why = NULL;

	if (IS_ERR(second))
		return "iommu_paging_domain_alloc";
	if (map(FIRST_IOVA, place_of(pages), SZ_4K, READ_WRITE) || !leads(FIRST_IOVA, pages, 0x700))
		why = "the first domain's page";
	iommu_detach_device(first, &edu->dev);
	domain = second;
	if (iommu_attach_device(second, &edu->dev))
		why = "iommu_attach_device";
	else {
		if (!write_is_refused(FIRST_IOVA, pages, 0x700))
			why = "the first domain's page is still used";
		if (map(FIRST_IOVA, place_of(other), SZ_4K, READ_WRITE) || !leads(FIRST_IOVA, other, 0x700))
			why = "the second domain's page";
		unmap(FIRST_IOVA, SZ_4K);
		iommu_detach_device(second, &edu->dev);
	}
	domain = first;
	iommu_domain_free(second);
	if (iommu_attach_device(first, &edu->dev))
		return "iommu_attach_device, again";
	if (!leads(FIRST_IOVA, pages, 0x700))
		why = "the first domain's page, again";
	return unmap(FIRST_IOVA, SZ_4K) ? why : "iommu_unmap";
}

/* The flush after an unmap is left out, and the page isn't used again. */
static const char *test_owes(void)
{
	struct iommu_iotlb_gather gather;

	if (map(FIRST_IOVA, place_of(pages), SZ_4K, READ_WRITE))
		return "iommu_map";
	if (!leads(FIRST_IOVA, pages, 0x600))
		return "the page isn't led to its frame";
	iommu_iotlb_gather_init(&gather);
	return iommu_unmap_fast(domain, FIRST_IOVA, SZ_4K, &gather) == SZ_4K ? NULL : "iommu_unmap_fast";
}

static void test_all(void)
{
	judge("map", test_map());
	judge("unmap", test_unmap());
	judge("read-only", test_read_only());
	judge("remap", test_remap());
	judge("superpage", test_superpage());
	judge("gigapage", test_gigapage());
	judge("64-KiB", test_64_kib());
	judge("rounds", test_rounds());
	judge("no-flush", test_no_flush());
	judge("second-domain", test_second_domain());
}

static irqreturn_t message_arrives(int irq, void *data)
{
	atomic_inc(&messages);
	return IRQ_HANDLED;
}

/* The device's message goes to this page. Returns whether it arrives within so many milliseconds. */
static bool arrives_within(int turns, u64 page)
{
	u32 address, before = atomic_read(&messages);
	int turn;

	pci_read_config_dword(edu, edu->msi_cap + PCI_MSI_ADDRESS_LO, &address);
	pci_write_config_dword(edu, edu->msi_cap + PCI_MSI_ADDRESS_LO, page << PAGE_SHIFT | (address & ~PAGE_MASK));
	writel(1, registers + EDU_RAISE);
	for (turn = 0; turn < turns && atomic_read(&messages) == before; turn++)
		usleep_range(1000, 2000);
	writel(1, registers + EDU_ACKNOWLEDGE);
	pci_write_config_dword(edu, edu->msi_cap + PCI_MSI_ADDRESS_LO, address);
	return atomic_read(&messages) == before + 1;
}

static bool arrives(u64 page)
{
	return arrives_within(5000, page);
}

static bool is_lost(u64 page)
{
	return !arrives_within(50, page);
}

/* The words of the device's context in the directory. */
static u64 *context_of(u64 ddtp)
{
	static const int shifts[] = {0, 6, 15};
	u64 *table = phys_to_virt((ddtp >> 10) << PAGE_SHIFT);
	int level;

	for (level = (ddtp & MODES) - 2; level > 0; level--)
		table = phys_to_virt((table[pci_dev_id(edu) >> shifts[level] & 511] >> 10) << PAGE_SHIFT);
	return table + CONTEXT_WORDS * (pci_dev_id(edu) & 63);
}

/* These tests begin and end with the identity domain; `place` is the page of the machine's interrupt file. */

static const char *test_no_file(u64 place)
{
	const char *why = NULL;

	if (iommu_attach_device(domain, &edu->dev))
		return "iommu_attach_device";
	if (!is_lost(place))
		why = "a message arrives by a page that isn't mapped";
	iommu_detach_device(domain, &edu->dev);
	return why;
}

/* The device's context gets an MSI page table. The driver leaves these words as they are, and flushes the context when it changes the domain. */
static void set_files(u64 *context, u64 msiptp)
{
	WRITE_ONCE(context[MASK], msiptp ? FILES - 1 : 0);
	WRITE_ONCE(context[PATTERN], msiptp ? FIRST_FILE : 0);
	WRITE_ONCE(context[MSIPTP], msiptp);
}

/* The domain leads to the interrupt files, and the MSI page table leads one of them to the machine's. */
static const char *test_file(u64 place, u64 *context)
{
	u64 *files = page_address(other), first = FIRST_IOVA >> PAGE_SHIFT;
	const char *why = NULL;

	if (map(FIRST_IOVA, FIRST_FILE << PAGE_SHIFT, FILES * SZ_4K, IOMMU_WRITE | IOMMU_MMIO))
		return "iommu_map";
	memset(files, 0, PAGE_SIZE);
	files[2 * GOOD_FILE] = LEADS_TO(place);
	set_files(context, FLAT | page_to_pfn(other));
	if (iommu_attach_device(domain, &edu->dev))
		why = "iommu_attach_device";
	else if (!arrives(first + GOOD_FILE))
		why = "a message doesn't arrive by its file";
	else if (!is_lost(first + INVALID_FILE) || !is_lost(place))
		why = "a message arrives that is led nowhere";
	set_files(context, 0);
	iommu_detach_device(domain, &edu->dev);
	return unmap(FIRST_IOVA, FILES * SZ_4K) ? why : "iommu_unmap";
}

static void test_messages(u64 *context)
{
	u32 low, high;
	u64 place;

	pci_read_config_dword(edu, edu->msi_cap + PCI_MSI_ADDRESS_LO, &low);
	pci_read_config_dword(edu, edu->msi_cap + PCI_MSI_ADDRESS_HI, &high);
	place = ((u64)high << 32 | low) >> PAGE_SHIFT;
	judge("message", arrives(place) ? NULL : "it doesn't arrive");
	judge("no-file", test_no_file(place));
	judge("file", test_file(place, context));
	judge("message-again", arrives(place) ? NULL : "it doesn't arrive");
}

/* If the IOMMU has MSI page tables, messages of the device are tested, too. */
static void test_all_messages(void)
{
	void __iomem *iommu = of_iomap(to_of_node(dev_iommu_fwspec_get(&edu->dev)->iommu_fwnode), 0);

	if (iommu && readq(iommu + CAPABILITIES) & HAS_MSI_FLAT && pci_alloc_irq_vectors(edu, 1, 1, PCI_IRQ_MSI) == 1) {
		if (!request_irq(pci_irq_vector(edu, 0), message_arrives, 0, "edu", edu)) {
			test_messages(context_of(readq(iommu + DDTP)));
			free_irq(pci_irq_vector(edu, 0), edu);
		}
		pci_free_irq_vectors(edu);
	}
	if (iommu)
		iounmap(iommu);
}

static int with_domain(void)
{
	int fault;

	domain = iommu_paging_domain_alloc(&edu->dev);
	if (IS_ERR(domain)) {
		pr_info("paging: no paging domain: %ld\n", PTR_ERR(domain));
		return PTR_ERR(domain);
	}
	fault = iommu_attach_device(domain, &edu->dev);
	if (fault) {
		pr_info("paging: iommu_attach_device: %d\n", fault);
	} else if (owes) {
		/* It stays attached, since its domain is flushed when it is detached. */
		judge("owes", test_owes());
		return 0;
	} else {
		pr_info("paging: sizes 0x%lx\n", domain->pgsize_bitmap);
		test_all();
		iommu_detach_device(domain, &edu->dev);
		judge("identity-again", leads(place_of(pages), pages, 0x800) ? NULL : "the device isn't led to the frame");
		test_all_messages();
	}
	iommu_domain_free(domain);
	return fault;
}

static int __init begin_paging(void)
{
	ktime_t begin = ktime_get();
	int fault = -ENODEV;

	edu = pci_get_device(EDU_VENDOR, EDU_DEVICE, NULL);
	pages = alloc_pages(GFP_KERNEL | __GFP_ZERO | __GFP_COMP, 4);
	other = alloc_page(GFP_KERNEL | __GFP_ZERO);
	if (edu && pages && other && !pci_enable_device(edu)) {
		pci_set_master(edu);
		registers = pci_iomap(edu, 0, 0);
		if (registers) {
			fault = with_domain();
			pci_iounmap(edu, registers);
		}
		pci_clear_master(edu);
		pci_disable_device(edu);
	}
	if (other)
		__free_page(other);
	if (pages)
		__free_pages(pages, 4);
	pci_dev_put(edu);
	pr_info("paging: %u passed, %u failed, %u accesses, %lld ms\n", passed, failed, accesses, ktime_ms_delta(ktime_get(), begin));
	return fault;
}

static void __exit end_paging(void)
{
}

module_init(begin_paging);
module_exit(end_paging);
MODULE_DESCRIPTION("Paging domains for the device edu");
MODULE_LICENSE("GPL");
