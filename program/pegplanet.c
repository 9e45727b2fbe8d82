/* The small program: a rule file on standard input, one line on standard output, then the answer bytes.
 *
 *     build/pegplanet < examples/append.rules
 *     build/pegplanet examples/append.rules
 *
 * It is the embedded form with budget, wanted number and room 1,000 each. Its exit status is 0 after an end, 1 after a refusal, and 2 where
 * the file could not be read or the line and the bytes not be written.
 *
 * What it assumes of its surroundings: fread gives the bytes of standard input or of the file, and printf and fwrite put out what they are given.
 */
#include <inttypes.h>
#include <stdio.h>
#include <string.h>

#include "pegplanet.h"

enum {
    EACH = 1000,
    WORDS = PEGPLANET_SCRATCH_WORDS(PEGPLANET_RUN_FILE, PEGPLANET_RUN_CELLS, PEGPLANET_RUN_STEPS, PEGPLANET_RUN_WORK)
};

static const char help[] = "pegplanet [FILE]      runs the query of a rule file, or of standard input: one line, then the answer bytes\n"
                           "pegplanet --numbers   lists the numbers of refusals and ends, in words\n"
                           "pegplanet --version   says its version\n"
                           "pegplanet --help      says this\n\n"
                           "Budget, wanted answers and room are 1,000 each, and a file has up to 4,000 bytes. The exit status is 0 after an\n"
                           "end, 1 after a refusal, and 2 where the file could not be read or the line and the bytes not be written.\n";

/* One byte more than a file may have, which tells that it has too many. */
static uint8_t file[PEGPLANET_RUN_FILE + 1];
static uint32_t scratch[WORDS];
static uint8_t out[EACH];

/* The bytes of a file that were read; more than a file may have where they could not be, which is said. */
static size_t read_file(const char *name) {
    FILE *stream = name == NULL ? stdin : fopen(name, "rb");
    size_t length = stream == NULL ? 0 : fread(file, 1, sizeof file, stream);
    if (stream == NULL || ferror(stream)) {
        perror(name == NULL ? "standard input" : name);
        return SIZE_MAX;
    }
    return length;
}

/* The embedded form of so many bytes. */
static struct pegplanet_result run(size_t length) {
    struct pegplanet_result too_long = {PEGPLANET_REFUSED_LENGTH, 0, 0, 0, 0};
    struct pegplanet_request request = {file,    length, PEGPLANET_RUN_CELLS, PEGPLANET_RUN_STEPS, PEGPLANET_RUN_WORK, EACH, EACH,
                                        scratch, WORDS,  out,                 EACH};
    return length > PEGPLANET_RUN_FILE ? too_long : pegplanet_ask(&request);
}

static void write_result(struct pegplanet_result result) {
    int small = result.number >= PEGPLANET_END_CELLS && result.number <= PEGPLANET_END_WORK;
    if (pegplanet_is_refusal(result.number)) {
        printf("refused %" PRIu64 " at %" PRIu64 "\n", result.number, result.place);
        return;
    }
    printf("end %" PRIu64 " answers %" PRIu64 " units %" PRIu64 " bytes %" PRIu64 "%s\n", result.number, result.answers, result.units, result.bytes,
           small ? " limits too small" : "");
    fwrite(out, 1, (size_t)result.bytes, stdout);
}

static void write_numbers(void) {
    unsigned number;
    for (number = PEGPLANET_REFUSED_LIMITS; number <= PEGPLANET_END_OUTPUT; number++) {
        if (number <= PEGPLANET_REFUSED_AFTER_END || number >= PEGPLANET_END_NO_MORE) {
            printf("%s %u\t%s\n", pegplanet_is_end(number) ? "end" : "refused", number, pegplanet_text(number));
        }
    }
}

/* Says what an option asks for; 0 where there is no such option. */
static int said(const char *option) {
    if (strcmp(option, "--help") == 0) {
        fputs(help, stdout);
    } else if (strcmp(option, "--version") == 0) {
        puts("pegplanet " PEGPLANET_VERSION);
    } else if (strcmp(option, "--numbers") == 0) {
        write_numbers();
    } else {
        return 0;
    }
    return 1;
}

int main(int argc, char **argv) {
    const char *word = argc > 1 ? argv[1] : NULL;
    int option = word != NULL && word[0] == '-', refused = 0;
    if (argc > 2 || (option && !said(word))) {
        fputs(help, stderr);
        return 2;
    }
    if (!option) {
        size_t length = read_file(word);
        if (length == SIZE_MAX) {
            return 2;
        }
        struct pegplanet_result result = run(length);
        write_result(result);
        refused = pegplanet_is_refusal(result.number);
    }
    if (fflush(stdout) != 0 || ferror(stdout)) {
        perror("standard output");
        return 2;
    }
    return refused;
}
