/* Pegplanet: a small Prolog machine to embed. Link build/libpegplanet.a; no other library is needed.
 *
 *     uint64_t packed = pegplanet_run(file, length, 1000000, 10, out, sizeof out);
 *     if (!pegplanet_answered(packed))
 *         printf("%s %u: %s\n", pegplanet_refused(packed) ? "refused" : "stopped", (unsigned)pegplanet_number(packed),
 *                pegplanet_text(pegplanet_number(packed)));
 *
 * The library has three functions: pegplanet_run, pegplanet_call and pegplanet_check. For each of them: it takes any bytes and any counts, and
 * comes back. It reads and writes the buffers that it is lent and nothing else, keeps nothing between calls and takes no memory but stack, so
 * that several threads may call it at once, each with buffers of its own. A buffer may be NULL where its length is 0. The buffers of one call
 * lie apart from each other.
 *
 * Around them stand inline functions: what a number says, the whole call with named fields, walking through answers, and putting a query into a
 * rule file. The order here: numbers, limits, the three functions, a packed number taken apart, the whole call by name, records, answers, queries.
 */
#ifndef PEGPLANET_H
#define PEGPLANET_H

#include <stddef.h>
#include <stdint.h>

#define PEGPLANET_VERSION "0.4.0"

#ifdef __cplusplus
extern "C" {
#endif

/* ---- Numbers ---- */

/* Why a call is refused. 1, 2 and 3 are tested in that order, with place 0; then the file is read forward and the first fault counts. The
 * place is that of the kind byte of the record at fault; where a kind is missing, the file's length; for bytes after the end record, the
 * first of them; for a declared variable that never appears, its clause or query record. */
enum {
    PEGPLANET_GOOD = 0,              /* it is not refused */
    PEGPLANET_REFUSED_LIMITS = 1,    /* a run limit out of range: cells and steps 1 to 60,000, work 8 to 60,000 */
    PEGPLANET_REFUSED_LENGTH = 2,    /* more than 60,000 bytes; in the embedded form more than 4,000 */
    PEGPLANET_REFUSED_SCRATCH = 3,   /* fewer words of scratch than needed */
    PEGPLANET_REFUSED_SHORT = 4,     /* file ends where a kind or a body byte is due */
    PEGPLANET_REFUSED_KIND = 5,      /* kind unknown, or not the one due here */
    PEGPLANET_REFUSED_NUMBER = 6,    /* arity, count, function or predicate number out of range, or one record too many of a kind */
    PEGPLANET_REFUSED_VARIABLE = 7,  /* variable not declared, or ahead of first appearance; or a declared one that never appears */
    PEGPLANET_REFUSED_LEVEL = 8,     /* a term at level 33 */
    PEGPLANET_REFUSED_AFTER_END = 9  /* bytes after the end record */
};

/* How a run ended. After 20 and 21 the answers are what was asked for; after the others there may be more of them. A call with the same file and
 * no less of cells, steps, work, budget, wanted answers and output, where it is not refused for its limits or its scratch, writes the same bytes
 * first and goes on from there; after 20 it tells and writes the same. */
enum {
    PEGPLANET_END_NO_MORE = 20, /* every choice is used up */
    PEGPLANET_END_WANTED = 21,  /* as many answers as wanted are written */
    PEGPLANET_END_BUDGET = 22,  /* no unit is left for the next move */
    PEGPLANET_END_CELLS = 23,   /* the next move would pass the limit of cells */
    PEGPLANET_END_STEPS = 24,   /* ... of steps */
    PEGPLANET_END_WORK = 25,    /* ... of work */
    PEGPLANET_END_OUTPUT = 26   /* the next answer does not fit the rest of the output */
};

/* 1 for the number of an end: 20 to 26, and 29, which a trace will bring. */
static inline int pegplanet_is_end(uint64_t number) {
    return (number >= PEGPLANET_END_NO_MORE && number <= PEGPLANET_END_OUTPUT) || number == 29;
}

/* 1 for the number of a refusal: every number but 0 and the ends, those that later versions bring as well. */
static inline int pegplanet_is_refusal(uint64_t number) {
    return number != PEGPLANET_GOOD && !pegplanet_is_end(number);
}

/* 1 for 20 and 21 alone: the answers are what was asked for, all of them or as many as wanted. */
static inline int pegplanet_is_answered(uint64_t number) {
    return number == PEGPLANET_END_NO_MORE || number == PEGPLANET_END_WANTED;
}

/* A number in words. */
static inline const char *pegplanet_text(uint64_t number) {
    switch (number) {
    case PEGPLANET_GOOD: return "good";
    case PEGPLANET_REFUSED_LIMITS: return "cells, steps or work out of range";
    case PEGPLANET_REFUSED_LENGTH: return "file too long";
    case PEGPLANET_REFUSED_SCRATCH: return "scratch too short";
    case PEGPLANET_REFUSED_SHORT: return "file ends where a record is due or not whole";
    case PEGPLANET_REFUSED_KIND: return "kind unknown, or not the one due here";
    case PEGPLANET_REFUSED_NUMBER: return "number out of range, or one record too many of a kind";
    case PEGPLANET_REFUSED_VARIABLE: return "variable not declared, ahead of its first appearance, or never appearing";
    case PEGPLANET_REFUSED_LEVEL: return "term at level 33";
    case PEGPLANET_REFUSED_AFTER_END: return "bytes after the end record";
    case PEGPLANET_END_NO_MORE: return "no more answers";
    case PEGPLANET_END_WANTED: return "wanted number reached";
    case PEGPLANET_END_BUDGET: return "budget spent";
    case PEGPLANET_END_CELLS: return "limit of cells met";
    case PEGPLANET_END_STEPS: return "limit of steps met";
    case PEGPLANET_END_WORK: return "limit of work met";
    case PEGPLANET_END_OUTPUT: return "output full";
    default: return pegplanet_is_end(number) ? "an end of a later version" : "a refusal of a later version";
    }
}

/* ---- Limits ---- */

/* The most that a rule file may have: bytes; functions, predicates, clauses; arguments of a function or predicate; variables and goals of a
 * clause or query; levels of a term. */
enum {
    PEGPLANET_LIMIT_FILE = 60000,
    PEGPLANET_LIMIT_FUNCTIONS = 1024,
    PEGPLANET_LIMIT_PREDICATES = 1024,
    PEGPLANET_LIMIT_CLAUSES = 8192,
    PEGPLANET_LIMIT_ARITY = 8,
    PEGPLANET_LIMIT_VARIABLES = 64,
    PEGPLANET_LIMIT_GOALS = 16,
    PEGPLANET_LIMIT_LEVELS = 32
};

/* The most that the limits of a run may be, and the least: cells and steps at least 1, work at least 8. */
enum { PEGPLANET_LIMIT_CELLS = 60000, PEGPLANET_LIMIT_STEPS = 60000, PEGPLANET_LIMIT_WORK = 60000, PEGPLANET_LIMIT_LEAST_WORK = 8 };

/* The embedded form: its longest file, its limits, and the most bytes of output that count as room. */
enum { PEGPLANET_RUN_FILE = 4000, PEGPLANET_RUN_CELLS = 1000, PEGPLANET_RUN_STEPS = 400, PEGPLANET_RUN_WORK = 200 };
#define PEGPLANET_RUN_ROOM 4000000000u

/* The words of scratch that the whole call needs for a file of F bytes, C cells, S steps and W work. */
#define PEGPLANET_SCRATCH_WORDS(F, C, S, W) ((size_t)64 + 2 * (size_t)(F) + 4 * (size_t)(C) + 8 * (size_t)(S) + 4 * (size_t)(W))

/* The most bytes of stack that each function takes: measured (68,000 for a run, of which 64,256 are its scratch; 3,792 for a call; 2,768 for
 * a check; on x86-64, with the deepest terms), and rounded up. */
enum { PEGPLANET_RUN_STACK = 72 * 1024, PEGPLANET_CALL_STACK = 8 * 1024, PEGPLANET_CHECK_STACK = 8 * 1024 };

/* The stack of a thread that calls one of them and does little else: the C library needs its own share of a thread's stack, PTHREAD_STACK_MIN
 * of <limits.h>, and pthread_attr_setstacksize takes no less. As PEGPLANET_THREAD_STACK(PEGPLANET_RUN_STACK). */
#define PEGPLANET_THREAD_STACK(stack) ((size_t)(stack) + (size_t)PTHREAD_STACK_MIN)

/* ---- The three functions ---- */

/* Runs the query of a rule file in the embedded form: the whole call with limits and scratch of its own.
 *
 * It returns one packed number: the end or the refusal in the upper 32 bits; in the lower the bytes written after an end, the place after a
 * refusal. Output beyond the bytes written stays as it was; after a refusal all of it does.
 */
uint64_t pegplanet_run(const uint8_t *file, size_t file_len, uint32_t budget, uint32_t wanted, uint8_t *out, size_t out_len);

/* Where the whole call tells what in its result, and the words of a result. Those that are not named here are 0. */
enum {
    PEGPLANET_RESULT_NUMBER = 0,  /* the end or the refusal */
    PEGPLANET_RESULT_PLACE = 1,   /* the place of a refusal; 0 after an end */
    PEGPLANET_RESULT_ANSWERS = 2, /* answers written; 0 after a refusal, as are the two that follow */
    PEGPLANET_RESULT_UNITS = 3,   /* units spent */
    PEGPLANET_RESULT_BYTES = 4,   /* bytes written */
    PEGPLANET_RESULT_WORDS = 12
};

/* The whole call: runs the query of a rule file within the limits that it is given.
 *
 * It writes as many of the words of the result as `result` holds, and leaves what `result` holds beyond them. Scratch needs
 * PEGPLANET_SCRATCH_WORDS(file_len, cells, steps, work) words; what they hold at entry changes nothing. After an end they are zero, and the
 * rest of scratch and the output beyond the bytes written are as they were; after a refusal all of scratch and output is as it was.
 */
void pegplanet_call(const uint8_t *file, size_t file_len, uint32_t cells, uint32_t steps, uint32_t work, uint32_t budget, uint32_t wanted,
                    uint32_t *scratch, size_t scratch_len, uint8_t *out, size_t out_len, uint64_t *result, size_t result_len);

/* Checks any bytes as a rule file, and runs nothing.
 *
 * It returns 0 where the file is good; otherwise a packed number with the refusal, 4 to 9, and its place. It takes time linear in the length.
 * Files are of at most 60,000 bytes in use; the check itself knows no such limit, and gives a place as its remainder by 2^32.
 */
uint64_t pegplanet_check(const uint8_t *file, size_t length);

/* ---- A packed number, taken apart ---- */

/* The end or refusal of a packed number; PEGPLANET_GOOD for a file that was checked and is good. */
static inline uint32_t pegplanet_number(uint64_t packed) {
    return (uint32_t)(packed >> 32);
}

/* 1 after a refusal, else 0. */
static inline int pegplanet_refused(uint64_t packed) {
    return pegplanet_is_refusal(pegplanet_number(packed));
}

/* 1 where the answers are what was asked for, all of them or as many as wanted; 0 after a refusal and where a limit stopped the run. */
static inline int pegplanet_answered(uint64_t packed) {
    return pegplanet_is_answered(pegplanet_number(packed));
}

/* The place of a refusal; 0 after an end. */
static inline uint32_t pegplanet_place(uint64_t packed) {
    return pegplanet_refused(packed) ? (uint32_t)packed : 0;
}

/* The bytes written after an end; 0 after a refusal. */
static inline uint32_t pegplanet_bytes(uint64_t packed) {
    return pegplanet_is_end(pegplanet_number(packed)) ? (uint32_t)packed : 0;
}

/* ---- The whole call by name ---- */

/* What the whole call gets. */
struct pegplanet_request {
    const uint8_t *file;
    size_t file_len;
    uint32_t cells, steps, work, budget, wanted;
    uint32_t *scratch;
    size_t scratch_len;
    uint8_t *out;
    size_t out_len;
};

/* What it tells; as in PEGPLANET_RESULT_NUMBER and those that follow it. */
struct pegplanet_result {
    uint64_t number, place, answers, units, bytes;
};

/* The whole call of a request. */
static inline struct pegplanet_result pegplanet_ask(const struct pegplanet_request *request) {
    uint64_t word[PEGPLANET_RESULT_WORDS];
    struct pegplanet_result result;
    pegplanet_call(request->file, request->file_len, request->cells, request->steps, request->work, request->budget, request->wanted,
                   request->scratch, request->scratch_len, request->out, request->out_len, word, PEGPLANET_RESULT_WORDS);
    result.number = word[PEGPLANET_RESULT_NUMBER];
    result.place = word[PEGPLANET_RESULT_PLACE];
    result.answers = word[PEGPLANET_RESULT_ANSWERS];
    result.units = word[PEGPLANET_RESULT_UNITS];
    result.bytes = word[PEGPLANET_RESULT_BYTES];
    return result;
}

/* ---- Records ---- */

/* The kinds of records: those of a rule file, then those of an answer. */
enum {
    PEGPLANET_KIND_FUNCTION = 1,
    PEGPLANET_KIND_PREDICATE = 2,
    PEGPLANET_KIND_CLAUSE = 3,
    PEGPLANET_KIND_VARIABLE = 4,
    PEGPLANET_KIND_APPLIED = 5, /* a function applied; in answers too */
    PEGPLANET_KIND_GOAL = 6,
    PEGPLANET_KIND_CUT = 7,
    PEGPLANET_KIND_QUERY = 8,
    PEGPLANET_KIND_END = 9,
    PEGPLANET_KIND_ANSWER = 10,
    PEGPLANET_KIND_FREE = 11, /* a variable in an answer */
    PEGPLANET_KIND_STEP = 12,
    PEGPLANET_KIND_ANSWER_END = 13
};

/* The bytes of a record behind its kind. */
static inline size_t pegplanet_body_length(unsigned kind) {
    static const uint8_t lengths[] = {0, 1, 1, 4, 1, 2, 2, 0, 2, 0, 4, 2, 2, 0};
    return kind < sizeof lengths ? lengths[kind] : 0;
}

/* A number of two bytes, the high byte first. */
static inline uint32_t pegplanet_two(const uint8_t *bytes) {
    return (uint32_t)bytes[0] << 8 | bytes[1];
}

/* The arity that a good rule file gives a function; 0 for a number of no function. */
static inline unsigned pegplanet_arity(const uint8_t *file, size_t file_len, uint32_t function) {
    size_t place = 2 * (size_t)function;
    return place + 1 < file_len && file[place] == PEGPLANET_KIND_FUNCTION ? file[place + 1] : 0;
}

/* ---- Answers ----
 *
 *     struct pegplanet_cursor answers = pegplanet_answers(out, bytes);
 *     struct pegplanet_answer answer;
 *     struct pegplanet_node node;
 *     uint32_t clause;
 *     while (pegplanet_next_answer(&answers, &answer)) {
 *         while (pegplanet_next_node(&answer.values, &node))
 *             printf(" %s%u", node.free ? "X" : "f", (unsigned)node.number);
 *         while (pegplanet_next_step(&answer.steps, &clause))
 *             printf(" by clause %u", (unsigned)clause);
 *     }
 *
 * No function reads outside the bytes that its cursor has, whatever they are.
 */

/* Bytes that are still ahead. */
struct pegplanet_cursor {
    const uint8_t *at, *end;
};

/* The counts of an answer, a cursor over its values and one over its steps. */
struct pegplanet_answer {
    uint32_t free_count, step_count;
    struct pegplanet_cursor values, steps;
};

/* A node of a value: a free variable of the answer or a function, by number. A function's arguments are the nodes that follow. */
struct pegplanet_node {
    int free;
    uint32_t number;
};

/* The answers in the bytes that a run has written. */
static inline struct pegplanet_cursor pegplanet_answers(const uint8_t *out, uint64_t bytes) {
    struct pegplanet_cursor answers;
    answers.at = out;
    answers.end = bytes == 0 ? out : out + bytes;
    return answers;
}

/* Takes a record of a kind off the front: its body, or NULL where no such record stands there whole. */
static inline const uint8_t *pegplanet_take(struct pegplanet_cursor *cursor, unsigned kind) {
    const uint8_t *record = cursor->at;
    size_t body = pegplanet_body_length(kind);
    if (record == cursor->end || *record != kind || (size_t)(cursor->end - record) <= body) {
        return NULL;
    }
    cursor->at = record + 1 + body;
    return record + 1;
}

/* Takes the next answer; 0 where there is none. */
static inline int pegplanet_next_answer(struct pegplanet_cursor *answers, struct pegplanet_answer *answer) {
    struct pegplanet_cursor ahead = *answers;
    const uint8_t *counts = pegplanet_take(&ahead, PEGPLANET_KIND_ANSWER);
    if (counts == NULL) {
        return 0;
    }
    answer->free_count = pegplanet_two(counts);
    answer->step_count = pegplanet_two(counts + 2);
    answer->values.at = ahead.at;
    while (pegplanet_take(&ahead, PEGPLANET_KIND_APPLIED) != NULL || pegplanet_take(&ahead, PEGPLANET_KIND_FREE) != NULL) {
    }
    answer->values.end = answer->steps.at = ahead.at;
    while (pegplanet_take(&ahead, PEGPLANET_KIND_STEP) != NULL) {
    }
    answer->steps.end = ahead.at;
    if (pegplanet_take(&ahead, PEGPLANET_KIND_ANSWER_END) == NULL) {
        return 0;
    }
    *answers = ahead;
    return 1;
}

/* Takes the next node of the values: those of the query's first variable come first, and each value begins with its outermost function. 0 where
 * there is none. */
static inline int pegplanet_next_node(struct pegplanet_cursor *values, struct pegplanet_node *node) {
    const uint8_t *body = pegplanet_take(values, PEGPLANET_KIND_APPLIED);
    node->free = body == NULL;
    if (body == NULL) {
        body = pegplanet_take(values, PEGPLANET_KIND_FREE);
    }
    node->number = body == NULL ? 0 : pegplanet_two(body);
    return body != NULL;
}

/* Takes a whole value, by the arities of the rule file: behind it stands the value of the query's next variable. 0 where there is none. */
static inline int pegplanet_next_value(struct pegplanet_cursor *values, const uint8_t *file, size_t file_len) {
    struct pegplanet_node node;
    size_t due;
    for (due = 1; due > 0; due--) {
        if (!pegplanet_next_node(values, &node)) {
            return 0;
        }
        due += node.free ? 0 : pegplanet_arity(file, file_len, node.number);
    }
    return 1;
}

/* Takes the next step: the number of its clause. 0 where there is none. */
static inline int pegplanet_next_step(struct pegplanet_cursor *steps, uint32_t *clause) {
    const uint8_t *body = pegplanet_take(steps, PEGPLANET_KIND_STEP);
    *clause = body == NULL ? 0 : pegplanet_two(body);
    return body != NULL;
}

/* ---- Queries ----
 *
 * A rule file whose query has no goals is a place for questions. ?- split(Why, rest):
 *
 *     struct pegplanet_builder question = pegplanet_rules(file, length, sizeof file);
 *     pegplanet_put_query(&question);
 *     pegplanet_put_goal(&question, predicate_split);
 *     pegplanet_put_variable(&question, 0);
 *     pegplanet_put_function(&question, function_rest);
 *     packed = pegplanet_run(file, pegplanet_put_end(&question), ...);
 *
 * Arguments follow their goal or function. The machine says whether the whole is good.
 */

/* Records that are put one behind the other. */
struct pegplanet_builder {
    uint8_t *file;
    size_t room, length; /* bytes that there may be, and are */
    size_t query;        /* the place of the query */
    int good;            /* 0 where something could not be put */
};

/* Puts a record whose body is this number. */
static inline void pegplanet_put(struct pegplanet_builder *builder, unsigned kind, uint32_t number) {
    size_t body = pegplanet_body_length(kind);
    if (!builder->good || builder->room - builder->length <= body || (uint64_t)number >> 8 * body != 0) {
        builder->good = 0;
        return;
    }
    builder->file[builder->length++] = (uint8_t)kind;
    for (; body > 0; body--) {
        builder->file[builder->length++] = (uint8_t)(number >> 8 * (body - 1));
    }
}

/* A rule file of so many bytes in a buffer of so much room; its query, of no goals, gives way to those that are put. */
static inline struct pegplanet_builder pegplanet_rules(uint8_t *file, size_t length, size_t room) {
    struct pegplanet_builder builder;
    int place = length >= 4 && length <= room && file[length - 4] == PEGPLANET_KIND_QUERY && file[length - 3] == 0 && file[length - 2] == 0 &&
                file[length - 1] == PEGPLANET_KIND_END;
    builder.file = file;
    builder.room = room;
    builder.length = builder.query = place ? length - 4 : room;
    builder.good = place;
    return builder;
}

/* Begins a query in the place of the one before. */
static inline void pegplanet_put_query(struct pegplanet_builder *builder) {
    builder->length = builder->query;
    builder->good = 1;
    pegplanet_put(builder, PEGPLANET_KIND_QUERY, 0);
}

/* Counts the goals of the query. */
static inline void pegplanet_count_goal(struct pegplanet_builder *builder) {
    if (builder->good) {
        builder->good = builder->file[builder->query + 2]++ < PEGPLANET_LIMIT_GOALS;
    }
}

static inline void pegplanet_put_goal(struct pegplanet_builder *builder, uint32_t predicate) {
    pegplanet_put(builder, PEGPLANET_KIND_GOAL, predicate);
    pegplanet_count_goal(builder);
}

/* What was found up to here is kept to: no goal before the cut is tried again. A query that ends with a cut has at most one answer. */
static inline void pegplanet_put_cut(struct pegplanet_builder *builder) {
    pegplanet_put(builder, PEGPLANET_KIND_CUT, 0);
    pegplanet_count_goal(builder);
}

/* Variables are numbered by first appearance, from 0 on. */
static inline void pegplanet_put_variable(struct pegplanet_builder *builder, uint32_t variable) {
    pegplanet_put(builder, PEGPLANET_KIND_VARIABLE, variable);
    if (builder->good && variable >= builder->file[builder->query + 1]) {
        builder->file[builder->query + 1] = (uint8_t)(variable + 1);
    }
}

static inline void pegplanet_put_function(struct pegplanet_builder *builder, uint32_t function) {
    pegplanet_put(builder, PEGPLANET_KIND_APPLIED, function);
}

/* Puts the end record. It returns the file's length; where something could not be put, 0, and the file of no bytes is refused. */
static inline size_t pegplanet_put_end(struct pegplanet_builder *builder) {
    pegplanet_put(builder, PEGPLANET_KIND_END, 0);
    return builder->good ? builder->length : 0;
}

#ifdef __cplusplus
}
#endif

#endif
