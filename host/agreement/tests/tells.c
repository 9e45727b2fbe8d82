/* Stands in for the library: a call tells the words that TELLS has, whatever it gets. So programs are tried with numbers that no call gives yet. */
#include "pegplanet.h"

#include <stdlib.h>

void pegplanet_call(const uint8_t *file, size_t file_len, uint32_t cells, uint32_t steps, uint32_t work, uint32_t budget, uint32_t wanted,
                    uint32_t *scratch, size_t scratch_len, uint8_t *out, size_t out_len, uint64_t *result, size_t result_len) {
    char *word = getenv("TELLS");
    size_t place;
    (void)file, (void)file_len, (void)cells, (void)steps, (void)work, (void)budget, (void)wanted;
    (void)scratch, (void)scratch_len, (void)out, (void)out_len;
    for (place = 0; place < result_len && place < PEGPLANET_RESULT_WORDS; place++) {
        result[place] = strtoull(word, &word, 10);
    }
}
