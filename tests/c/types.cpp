// What the header's types say, from C++: each function answers an enum of its own, looks take a const handle, and structs keep their size.
#include <cstdint>
#include <cstdio>
#include <type_traits>

#include "rviommu.h"

template <typename Wanted, typename Answer, typename... Operands>
constexpr bool answers(Answer (*)(Operands...)) {
    return std::is_same<Answer, Wanted>::value;
}

template <typename First, typename Answer, typename... Operands>
constexpr bool takes(Answer (*)(First, Operands...)) {
    return true;
}

static_assert(answers<rviommu_status>(rviommu_open), "");
static_assert(answers<rviommu_status>(rviommu_open_built_in), "");
static_assert(answers<rviommu_status>(rviommu_open_lent), "");
static_assert(answers<rviommu_status>(rviommu_open_lent_image), "");
static_assert(answers<rviommu_status>(rviommu_memory_write), "");
static_assert(answers<rviommu_answer>(rviommu_translate), "");
static_assert(answers<rviommu_answer>(rviommu_translate_lent), "");
static_assert(answers<rviommu_answer>(rviommu_command_lent), "");
static_assert(answers<rviommu_status>(rviommu_way_now), "");
static_assert(answers<rviommu_status>(rviommu_copy), "");
static_assert(answers<rviommu_status>(rviommu_save), "");
static_assert(answers<rviommu_status>(rviommu_restore), "");
static_assert(takes<const rviommu_t *>(rviommu_save), "");
static_assert(answers<rviommu_status>(rviommu_keep_reasons), "");
static_assert(answers<rviommu_status>(rviommu_line), "");
static_assert(answers<rviommu_answer>(rviommu_load), "");
static_assert(answers<rviommu_answer>(rviommu_store), "");
static_assert(answers<rviommu_answer>(rviommu_reg_read), "");
static_assert(answers<rviommu_answer>(rviommu_reg_write), "");
static_assert(answers<rviommu_answer>(rviommu_dma_read), "");
static_assert(answers<rviommu_answer>(rviommu_dma_write), "");
static_assert(answers<rviommu_answer>(rviommu_dma_read_all), "");
static_assert(answers<rviommu_answer>(rviommu_dma_write_all), "");
static_assert(answers<rviommu_answer>(rviommu_command), "");
static_assert(answers<rviommu_answer>(rviommu_settle), "");
static_assert(answers<rviommu_answer>(rviommu_dev_read), "");
static_assert(answers<rviommu_answer>(rviommu_dev_write), "");
static_assert(answers<rviommu_answer>(rviommu_dev_step), "");
static_assert(answers<rviommu_place>(rviommu_page), "");
static_assert(answers<rviommu_place>(rviommu_context), "");
static_assert(answers<std::uint64_t>(rviommu_messages_sent), "");
static_assert(answers<rviommu_status>(rviommu_message), "");
static_assert(answers<rviommu_status>(rviommu_take_message), "");
static_assert(answers<rviommu_status>(rviommu_part), "");
static_assert(answers<rviommu_standing>(rviommu_stale), "");
static_assert(answers<rviommu_standing>(rviommu_stale_page), "");
static_assert(answers<rviommu_standing>(rviommu_stale_context), "");
static_assert(answers<rviommu_status>(rviommu_reason), "");
static_assert(answers<rviommu_status>(rviommu_all_owed), "");
static_assert(answers<rviommu_status>(rviommu_cause_text), "");
static_assert(answers<rviommu_status>(rviommu_settled), "");
static_assert(answers<rviommu_status>(rviommu_settled_lent), "");
static_assert(answers<rviommu_status>(rviommu_owed_lent), "");
static_assert(answers<rviommu_status>(rviommu_may_free), "");
static_assert(answers<rviommu_status>(rviommu_judge_open), "");
static_assert(answers<rviommu_status>(rviommu_judge_line), "");
static_assert(answers<rviommu_status>(rviommu_assemble), "");
static_assert(takes<rviommu_status>(rviommu_text), "");

static_assert(takes<const rviommu_t *>(rviommu_copy), "");
static_assert(takes<const rviommu_t *>(rviommu_memory), "");
static_assert(takes<const rviommu_t *>(rviommu_memory_place), "");
static_assert(takes<const rviommu_t *>(rviommu_disk), "");
static_assert(takes<const rviommu_t *>(rviommu_interrupt), "");
static_assert(takes<const rviommu_t *>(rviommu_messages_sent), "");
static_assert(takes<const rviommu_t *>(rviommu_message), "");
static_assert(takes<rviommu_t *>(rviommu_take_message), "");
static_assert(takes<const rviommu_t *>(rviommu_part), "");
static_assert(takes<const rviommu_t *>(rviommu_reason), "");
static_assert(takes<const rviommu_t *>(rviommu_why), "");
static_assert(takes<const rviommu_t *>(rviommu_owed), "");
static_assert(takes<const rviommu_t *>(rviommu_way_now), "");
static_assert(takes<const rviommu_t *>(rviommu_way_now_lent), "");
static_assert(takes<const rviommu_t *>(rviommu_settled), "");
static_assert(takes<const rviommu_t *>(rviommu_owed_lent), "");
static_assert(takes<const rviommu_t *>(rviommu_may_free), "");
static_assert(takes<const rviommu_t *>(rviommu_judge_open), "");

// A member that is added takes its room from `reserved`.
static_assert(sizeof(rviommu_page_place) == 56, "");
static_assert(sizeof(rviommu_context_place) == 64, "");
static_assert(sizeof(rviommu_way) == 112, "");
static_assert(sizeof(rviommu_located) == 88, "");
static_assert(sizeof(rviommu_walk_part) == 224, "");
static_assert(sizeof(struct rviommu_why) == 200, "");
static_assert(sizeof(rviommu_unsettled) == 264, "");
static_assert(sizeof(struct rviommu_owed) == 312, "");
static_assert(sizeof(rviommu_naming) == 96, "");
static_assert(sizeof(rviommu_sent_message) == 32, "");

int main() {
    rviommu_t platform = {nullptr};
    const rviommu_t &view = platform;
    std::size_t done = 0;
    unsigned char bytes[100] = {0};
    if (rviommu_open_built_in(&platform) != RVIOMMU_OK || rviommu_reg_write(&platform, 0x10, 8, 1) != RVIOMMU_DONE) {
        return 1;
    }
    const rviommu_answer answer = rviommu_dma_write_all(&platform, 5, 0x80000fc0, bytes, sizeof bytes, &done, nullptr);
    struct rviommu_why why = {};
    const bool is_seen = rviommu_steps(&view) == 3 && rviommu_interrupt(&view) == 0 && rviommu_reason(&view, 2, &why) == RVIOMMU_OK && why.number == 3;
    rviommu_close(&platform);
    rviommu_close(&platform);
    std::puts(answer == RVIOMMU_DONE && done == sizeof bytes && is_seen ? "passed" : "failed");
}
