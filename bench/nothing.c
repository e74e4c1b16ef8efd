#include "nothing.h"

uint32_t nothing_read(rviommu_t *handle, uint64_t offset, uint64_t size, uint64_t *value) {
    (void)handle, (void)offset, (void)size, (void)value;
    return RVIOMMU_VALUE;
}

uint32_t nothing_dma(rviommu_t *handle, uint64_t did, uint64_t iova, uint8_t *bytes, size_t length, uint64_t *cause) {
    (void)handle, (void)did, (void)iova, (void)bytes, (void)length, (void)cause;
    return RVIOMMU_BYTES;
}
