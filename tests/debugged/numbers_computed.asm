# debug: what stands behind a let is computed from left to right, and each result fits 64 bits
ram 0x80000000 0x1000
