/* Runs the reader for libFuzzer: what the bytes read as mustn't depend on the pieces in which they come. With PRINT set it prints how many requests
   they read as, and how many of these are to be logged, for tests/coverage_fuzz.py to compare with the oracle. */
#include <inttypes.h>
#include <stdint.h>
#include <stdio.h>
#include <stdlib.h>

uint64_t reader_counts(const uint8_t *bytes, size_t length, size_t size);

int LLVMFuzzerTestOneInput(const uint8_t *bytes, size_t length) {
    if (!length) return 0;
    uint64_t whole = reader_counts(bytes, length, length);
    if (reader_counts(bytes, length, 1) != whole || reader_counts(bytes, length, 7) != whole) abort();
    if (getenv("PRINT")) printf("counts %" PRIu64 " %" PRIu64 "\n", whole & UINT32_MAX, whole >> 32);
    return 0;
}
