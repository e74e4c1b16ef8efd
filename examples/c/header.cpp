// The header from C++: an example of the smallest program.
#include <cstdio>
#include <string>

#include "rviommu.h"

int main() {
    rviommu_t platform = {nullptr};
    if (rviommu_open_built_in(&platform) != RVIOMMU_OK) {
        return 1;
    }
    const std::string line = "reg read 0 8";
    char answer[321];
    size_t length = 0;
    const bool is_told = rviommu_line(&platform, line.data(), line.size(), answer, sizeof answer, &length) == RVIOMMU_OK;
    std::puts(answer);
    rviommu_close(&platform);
    return is_told ? 0 : 1;
}
