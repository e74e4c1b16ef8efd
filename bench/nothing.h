/* Functions with the arguments of the library's that do nothing. */
#ifndef NOTHING_H
#define NOTHING_H

#include "rviommu.h"

uint32_t nothing_read(rviommu_t *handle, uint64_t offset, uint64_t size, uint64_t *value);
uint32_t nothing_dma(rviommu_t *handle, uint64_t did, uint64_t iova, uint8_t *bytes, size_t length, uint64_t *cause);

#endif
