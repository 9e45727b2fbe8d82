/* Checks the rule file that stands on standard input, and says in one line what came of it. */
#include "pegplanet.h"

#include <stdio.h>

/* One byte more than a rule file may have, which tells that it has too many. */
static uint8_t file[PEGPLANET_LIMIT_FILE + 1];

int main(void) {
    size_t length = fread(file, 1, sizeof file, stdin);
    uint64_t packed = pegplanet_check(file, length);

    if (length > PEGPLANET_LIMIT_FILE) {
        puts(pegplanet_text(PEGPLANET_REFUSED_LENGTH));
        return 2;
    }
    if (pegplanet_refused(packed)) {
        printf("refused %u at %u: %s\n", (unsigned)pegplanet_number(packed), (unsigned)pegplanet_place(packed),
               pegplanet_text(pegplanet_number(packed)));
        return 1;
    }
    puts("good");
    return 0;
}
