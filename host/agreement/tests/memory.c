/* Calls of the library on buffers between walls: what is read or written outside them is not passed over.
 *
 *     memory pages     each buffer lies between two pages that no one may touch, against the one behind it and the one before it in turn
 *     memory heap      each buffer has memory of its own, with nothing in it; for valgrind, which knows where it ends and what was never written
 *     memory .. past   the same, and the byte behind each file is read: a wall that stands shows it
 *
 * Standard input has calls: nine 32-bit words (lengths of file, scratch, output and result; cells, steps, work; budget, wanted), then the file.
 * Standard output gets a line for each: what the check, the call and the run said, and sums over the bytes that call and run wrote. The header's
 * functions walk through what was written, through all of it but its last byte, and through the file, as though it held answers.
 */
#define _DEFAULT_SOURCE
#include <inttypes.h>
#include <stdio.h>
#include <stdlib.h>
#include <string.h>
#include <sys/mman.h>
#include <unistd.h>

#include "pegplanet.h"

static int pages, at_end;

static void need(int good, const char *what) {
    if (!good) {
        fprintf(stderr, "%s\n", what);
        exit(1);
    }
}

/* A buffer, and the memory around it. */
struct buffer {
    void *start, *memory;
    size_t around;
};

static struct buffer buffer_of(size_t bytes) {
    struct buffer buffer = {NULL, NULL, 0};
    if (!pages) {
        buffer.start = buffer.memory = malloc(bytes);
        need(bytes == 0 || buffer.start != NULL, "no memory");
        return buffer;
    }
    size_t page = (size_t)sysconf(_SC_PAGESIZE), inside = (bytes + page - 1) / page * page;
    buffer.around = inside + 2 * page;
    buffer.memory = mmap(NULL, buffer.around, PROT_NONE, MAP_PRIVATE | MAP_ANONYMOUS, -1, 0);
    need(buffer.memory != MAP_FAILED, "no memory");
    char *first = (char *)buffer.memory + page;
    need(inside == 0 || mprotect(first, inside, PROT_READ | PROT_WRITE) == 0, "no memory");
    buffer.start = at_end ? first + inside - bytes : first;
    return buffer;
}

static void give_back(struct buffer buffer) {
    if (pages) {
        munmap(buffer.memory, buffer.around);
    } else {
        free(buffer.memory);
    }
}

static uint64_t sum(const uint8_t *bytes, uint64_t count) {
    uint64_t sum = 0;
    for (uint64_t place = 0; place < count; place++) {
        sum = sum * 257 + bytes[place] + 1;
    }
    return sum;
}

/* A byte of an answer that is put together again, and what stood there. */
static size_t again(const uint8_t *bytes, size_t place, uint32_t byte) {
    need(bytes[place] == byte, "an answer is not what its walk says");
    return place + 1;
}

static size_t again_two(const uint8_t *bytes, size_t place, unsigned kind, uint32_t number) {
    place = again(bytes, place, kind);
    place = again(bytes, place, number >> 8);
    return again(bytes, place, number & 255);
}

/* Walks through the answers in these bytes, which lie between walls of their own; what is found is what stands there. Their number. */
static uint64_t walk(const uint8_t *bytes, size_t count, const uint8_t *file, size_t file_length) {
    struct buffer buffer = buffer_of(count);
    const uint8_t *copy = buffer.start;
    if (count > 0) {
        memcpy(buffer.start, bytes, count);
    }
    struct pegplanet_cursor answers = pegplanet_answers(copy, count);
    struct pegplanet_answer answer;
    struct pegplanet_node node;
    uint32_t clause;
    uint64_t found = 0;
    for (size_t place = 0; pegplanet_next_answer(&answers, &answer); found++) {
        struct pegplanet_cursor values = answer.values;
        while (pegplanet_next_value(&values, file, file_length)) {
        }
        place = again_two(bytes, place, PEGPLANET_KIND_ANSWER, answer.free_count);
        place = again(bytes, place, answer.step_count >> 8);
        place = again(bytes, place, answer.step_count & 255);
        while (pegplanet_next_node(&answer.values, &node)) {
            place = again_two(bytes, place, node.free ? PEGPLANET_KIND_FREE : PEGPLANET_KIND_APPLIED, node.number);
        }
        while (pegplanet_next_step(&answer.steps, &clause)) {
            place = again_two(bytes, place, PEGPLANET_KIND_STEP, clause);
        }
        place = again(bytes, place, PEGPLANET_KIND_ANSWER_END);
        need(answers.at == copy + place, "an answer ends elsewhere");
    }
    give_back(buffer);
    return found;
}

int main(int argc, char **argv) {
    enum { FILE_LENGTH, SCRATCH, OUT, RESULT, CELLS, STEPS, WORK, BUDGET, WANTED, WORDS };
    uint32_t word[WORDS];
    need(argc >= 2, "memory pages or heap");
    pages = strcmp(argv[1], "pages") == 0;
    while (fread(word, sizeof *word, WORDS, stdin) == WORDS) {
        at_end = !at_end;
        struct buffer file = buffer_of(word[FILE_LENGTH]), scratch = buffer_of(4 * (size_t)word[SCRATCH]), out = buffer_of(word[OUT]);
        struct buffer run_out = buffer_of(word[OUT]), result = buffer_of(8 * (size_t)word[RESULT]);
        uint64_t *told = (uint64_t *)result.start;
        need(fread(file.start, 1, word[FILE_LENGTH], stdin) == word[FILE_LENGTH], "a file is due");
        uint64_t checked = pegplanet_check(file.start, word[FILE_LENGTH]);
        pegplanet_call(file.start, word[FILE_LENGTH], word[CELLS], word[STEPS], word[WORK], word[BUDGET], word[WANTED], scratch.start, word[SCRATCH],
                       out.start, word[OUT], told, word[RESULT]);
        uint64_t run = pegplanet_run(file.start, word[FILE_LENGTH], word[BUDGET], word[WANTED], run_out.start, word[OUT]);
        walk(file.start, word[FILE_LENGTH], file.start, word[FILE_LENGTH]);
        if (word[RESULT] > PEGPLANET_RESULT_BYTES) {
            size_t bytes = (size_t)told[PEGPLANET_RESULT_BYTES];
            uint64_t found = told[PEGPLANET_RESULT_ANSWERS];
            need(walk(out.start, bytes, file.start, word[FILE_LENGTH]) == found, "not as many answers as told");
            need(found == 0 || walk(out.start, bytes - 1, file.start, word[FILE_LENGTH]) == found - 1, "an answer that is not whole");
        }
        if (argc > 2 && ((volatile uint8_t *)file.start)[word[FILE_LENGTH]] == 1) {
            puts("past");
        }
        printf("%" PRIu64, checked);
        for (uint32_t place = 0; place < word[RESULT] && place < PEGPLANET_RESULT_WORDS; place++) {
            printf(" %" PRIu64, told[place]);
        }
        printf(" %" PRIu64 " %" PRIu64, run, sum(run_out.start, pegplanet_bytes(run)));
        printf(" %" PRIu64 "\n", word[RESULT] > PEGPLANET_RESULT_BYTES ? sum(out.start, told[PEGPLANET_RESULT_BYTES]) : 0);
        give_back(file);
        give_back(scratch);
        give_back(out);
        give_back(run_out);
        give_back(result);
    }
    return 0;
}
