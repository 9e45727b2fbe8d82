/* The header, as a C99 and as a C++ program: its constants are the documents' numbers, its functions take a packed number apart, walk through case
 * A's answers and put case A's query into its rules, and the library's functions take each buffer as NULL and each length of a result. Case A is
 * asked again with more of everything. */
#include "pegplanet.h"
#include "pegplanet.h"

#include <stdio.h>
#include <string.h>

static int failed = 0;

static void same(const char *what, uint64_t found, uint64_t expected) {
    if (found != expected) {
        printf("%s: %lu, not %lu\n", what, (unsigned long)found, (unsigned long)expected);
        failed = 1;
    }
}

static void constants(void) {
    same("good", PEGPLANET_GOOD, 0);
    same("limits", PEGPLANET_REFUSED_LIMITS, 1);
    same("file too long", PEGPLANET_REFUSED_LENGTH, 2);
    same("scratch", PEGPLANET_REFUSED_SCRATCH, 3);
    same("file ends", PEGPLANET_REFUSED_SHORT, 4);
    same("kind not due", PEGPLANET_REFUSED_KIND, 5);
    same("number out of range", PEGPLANET_REFUSED_NUMBER, 6);
    same("variable", PEGPLANET_REFUSED_VARIABLE, 7);
    same("too deep", PEGPLANET_REFUSED_LEVEL, 8);
    same("bytes after end", PEGPLANET_REFUSED_AFTER_END, 9);
    same("no more", PEGPLANET_END_NO_MORE, 20);
    same("wanted", PEGPLANET_END_WANTED, 21);
    same("budget", PEGPLANET_END_BUDGET, 22);
    same("cells", PEGPLANET_END_CELLS, 23);
    same("steps", PEGPLANET_END_STEPS, 24);
    same("work", PEGPLANET_END_WORK, 25);
    same("output", PEGPLANET_END_OUTPUT, 26);
    same("longest file", PEGPLANET_LIMIT_FILE, 60000);
    same("most functions", PEGPLANET_LIMIT_FUNCTIONS, 1024);
    same("most predicates", PEGPLANET_LIMIT_PREDICATES, 1024);
    same("most clauses", PEGPLANET_LIMIT_CLAUSES, 8192);
    same("most arguments", PEGPLANET_LIMIT_ARITY, 8);
    same("most variables", PEGPLANET_LIMIT_VARIABLES, 64);
    same("most goals", PEGPLANET_LIMIT_GOALS, 16);
    same("most levels", PEGPLANET_LIMIT_LEVELS, 32);
    same("most cells", PEGPLANET_LIMIT_CELLS, 60000);
    same("most steps", PEGPLANET_LIMIT_STEPS, 60000);
    same("most work", PEGPLANET_LIMIT_WORK, 60000);
    same("least work", PEGPLANET_LIMIT_LEAST_WORK, 8);
    same("file of a run", PEGPLANET_RUN_FILE, 4000);
    same("cells of a run", PEGPLANET_RUN_CELLS, 1000);
    same("steps of a run", PEGPLANET_RUN_STEPS, 400);
    same("work of a run", PEGPLANET_RUN_WORK, 200);
    same("room of a run", PEGPLANET_RUN_ROOM, (uint64_t)4 * 1000 * 1000 * 1000);
    same("stack", PEGPLANET_RUN_STACK > 4 * 16064 && PEGPLANET_CALL_STACK > 0 && PEGPLANET_CHECK_STACK > 0, 1);
    same("number in a result", PEGPLANET_RESULT_NUMBER, 0);
    same("place in a result", PEGPLANET_RESULT_PLACE, 1);
    same("answers in a result", PEGPLANET_RESULT_ANSWERS, 2);
    same("units in a result", PEGPLANET_RESULT_UNITS, 3);
    same("bytes in a result", PEGPLANET_RESULT_BYTES, 4);
    same("words of a result", PEGPLANET_RESULT_WORDS, 12);
    same("scratch of a run", PEGPLANET_SCRATCH_WORDS(PEGPLANET_RUN_FILE, PEGPLANET_RUN_CELLS, PEGPLANET_RUN_STEPS, PEGPLANET_RUN_WORK), 16064);
    same("scratch of a sum", PEGPLANET_SCRATCH_WORDS(1 + 1, 1 + 2, 2 + 2, 4 + 4), 64 + 4 + 12 + 32 + 32);
    same("most scratch", PEGPLANET_SCRATCH_WORDS(60000, 60000, 60000, 60000), 1080064);
}

/* A packed number, and what the functions find in it. */
static void packed(uint32_t upper, uint32_t lower, int refused, int ended, int answered) {
    uint64_t number = (uint64_t)upper << 32 | lower;
    same("number", pegplanet_number(number), upper);
    same("refused", (uint64_t)pegplanet_refused(number), (uint64_t)refused);
    same("a refusal", (uint64_t)pegplanet_is_refusal(upper), (uint64_t)refused);
    same("an end", (uint64_t)pegplanet_is_end(upper), (uint64_t)ended);
    same("answered", (uint64_t)pegplanet_answered(number), (uint64_t)answered);
    same("an answered number", (uint64_t)pegplanet_is_answered(upper), (uint64_t)answered);
    same("place", pegplanet_place(number), refused ? lower : 0);
    same("bytes", pegplanet_bytes(number), ended ? lower : 0);
}

/* Ends are 20 to 26, and 29 of document 02; every other number but 0 is a refusal. */
static void packed_numbers(void) {
    uint32_t number;
    for (number = 0; number <= 40; number++) {
        int ended = (number >= 20 && number <= 26) || number == 29;
        packed(number, 0, number != 0 && !ended, ended, number == 20 || number == 21);
        packed(number, 60000, number != 0 && !ended, ended, number == 20 || number == 21);
        packed(number, 0xFFFFFFFFu, number != 0 && !ended, ended, number == 20 || number == 21);
    }
}

/* Every number of document 01 has words of its own, and the others say which of the two they are. */
static void texts(void) {
    uint32_t number, other;
    for (number = 0; number <= 26; number++) {
        for (other = number + 1; other <= 26; other++) {
            int both_unknown = number >= 10 && number <= 19 && other >= 10 && other <= 19;
            same("words apart", strcmp(pegplanet_text(number), pegplanet_text(other)) == 0, (uint64_t)both_unknown);
        }
    }
    same("words of 20", (uint64_t)strcmp(pegplanet_text(20), "no more answers"), 0);
    same("words of 26", (uint64_t)strcmp(pegplanet_text(26), "output full"), 0);
    same("words of 29", strstr(pegplanet_text(29), "end") != NULL, 1);
    same("words of 28", strstr(pegplanet_text(28), "refusal") != NULL, 1);
}

static void refused(const char *what, const uint8_t *file, size_t length, uint32_t refusal, uint32_t place) {
    uint64_t number = pegplanet_check(file, length);
    same(what, pegplanet_number(number), refusal);
    same(what, pegplanet_place(number), place);
}

static const uint8_t good[] = {8, 0, 0, 9};
static const uint8_t answer[] = {0x0A, 0, 0, 0, 0, 0x0D};

static void checks(void) {
    static const uint8_t kind[] = {1, 0, 0};
    static const uint8_t arity[] = {1, 0, 1, 9};
    static const uint8_t unused[] = {2, 0, 8, 1, 0, 9};
    static const uint8_t after[] = {8, 0, 0, 9, 9};
    /* s(s(..)) of 33 levels, after a function, a predicate, the query and its goal */
    uint8_t deep[10 + 3 * 33] = {1, 1, 2, 1, 8, 0, 1, 6, 0, 0};
    int level;
    for (level = 0; level < 33; level++) {
        deep[10 + 3 * level] = 5;
    }
    same("a good file", pegplanet_check(good, 4), 0);
    same("no file", pegplanet_check(NULL, 0), (uint64_t)4 << 32);
    refused("a good file", good, 4, PEGPLANET_GOOD, 0);
    refused("no end record", good, 3, PEGPLANET_REFUSED_SHORT, 3);
    refused("a kind that is unknown", kind, 3, PEGPLANET_REFUSED_KIND, 2);
    refused("arity 9", arity, 4, PEGPLANET_REFUSED_NUMBER, 2);
    refused("a variable that never appears", unused, 6, PEGPLANET_REFUSED_VARIABLE, 2);
    refused("level 33", deep, sizeof deep, PEGPLANET_REFUSED_LEVEL, 10 + 3 * 32);
    refused("a byte after the end", after, 5, PEGPLANET_REFUSED_AFTER_END, 4);
}

static void runs(void) {
    uint8_t out[8] = {7, 7, 7, 7, 7, 7, 7, 7};
    uint64_t number = pegplanet_run(good, 4, 0, 2, out, sizeof out);
    same("end of a run", pegplanet_number(number), PEGPLANET_END_NO_MORE);
    same("bytes of a run", pegplanet_bytes(number), 6);
    same("answer of a run", (uint64_t)memcmp(out, answer, 6), 0);
    same("output after the answer", out[6] == 7 && out[7] == 7, 1);
    same("a run with no file", pegplanet_run(NULL, 0, 9, 9, out, sizeof out), (uint64_t)PEGPLANET_REFUSED_SHORT << 32);
    same("a run with no output", pegplanet_run(good, 4, 9, 9, NULL, 0), (uint64_t)PEGPLANET_END_OUTPUT << 32);
    same("a run with neither", pegplanet_run(NULL, 0, 0, 0, NULL, 0), (uint64_t)PEGPLANET_REFUSED_SHORT << 32);
}

enum { C = 1, S = 1, W = 8, LONGEST = 20 };
static uint32_t scratch[PEGPLANET_SCRATCH_WORDS(4, C, S, W)];
static const size_t needed = sizeof scratch / sizeof *scratch;

/* The query of no goals, called for a result of so many words: those it tells, and 7 beyond them. */
static void result_of(size_t words) {
    static const uint64_t told[PEGPLANET_RESULT_WORDS] = {PEGPLANET_END_NO_MORE, 0, 1, 0, 6, 0, 0, 0, 0, 0, 0, 0};
    uint64_t result[LONGEST + 1];
    uint8_t out[6];
    size_t word;
    for (word = 0; word <= LONGEST; word++) {
        result[word] = 7;
    }
    pegplanet_call(good, 4, C, S, W, 9, 9, scratch, needed, out, sizeof out, result, words);
    for (word = 0; word <= LONGEST; word++) {
        same("word of a result", result[word], word < words && word < PEGPLANET_RESULT_WORDS ? told[word] : 7);
    }
    same("answer of a call", (uint64_t)memcmp(out, answer, 6), 0);
}

static void calls(void) {
    static const size_t lengths[] = {0, 1, 2, 3, 4, 5, 6, 11, 12, 13, LONGEST};
    uint64_t result[PEGPLANET_RESULT_WORDS];
    uint8_t out[6] = {0};
    size_t length;
    for (length = 0; length < sizeof lengths / sizeof *lengths; length++) {
        result_of(lengths[length]);
    }
    pegplanet_call(good, 4, C, S, W, 9, 9, scratch, needed, out, sizeof out, NULL, 0);
    same("answer of a call with no result", (uint64_t)memcmp(out, answer, 6), 0);
    pegplanet_call(NULL, 0, C, S, W, 9, 9, scratch, needed, out, sizeof out, result, PEGPLANET_RESULT_WORDS);
    same("a call with no file", result[PEGPLANET_RESULT_NUMBER], PEGPLANET_REFUSED_SHORT);
    pegplanet_call(good, 4, C, S, W, 9, 9, NULL, 0, out, sizeof out, result, PEGPLANET_RESULT_WORDS);
    same("a call with no scratch", result[PEGPLANET_RESULT_NUMBER], PEGPLANET_REFUSED_SCRATCH);
    pegplanet_call(good, 4, C, S, W, 9, 9, scratch, needed, NULL, 0, result, PEGPLANET_RESULT_WORDS);
    same("a call with no output", result[PEGPLANET_RESULT_NUMBER], PEGPLANET_END_OUTPUT);
    pegplanet_call(NULL, 0, 0, 0, 0, 0, 0, NULL, 0, NULL, 0, result, PEGPLANET_RESULT_WORDS);
    same("a call with nothing", result[PEGPLANET_RESULT_NUMBER], PEGPLANET_REFUSED_LIMITS);
    pegplanet_call(NULL, 0, 0, 0, 0, 0, 0, NULL, 0, NULL, 0, NULL, 0);
}

/* Case A: its rules with a query of no goals, its query, and its output, as document 01 writes them. */
static const uint8_t append_rules[] = {1, 0, 1, 2, 1, 0, 2, 3, 3, 0, 0, 1, 0, 5, 0, 0, 4, 0, 4, 0, 3, 0, 0, 4, 1, 5, 0, 1, 4,
                                       0, 4, 1, 4, 2, 5, 0, 1, 4, 0, 4, 3, 6, 0, 0, 4, 1, 4, 2, 4, 3, 8, 0, 0, 9};
static const uint8_t append_query[] = {8, 2, 1, 6, 0, 0, 4, 0, 4, 1, 5, 0, 1, 5, 0, 2, 5, 0, 0, 9};
static const uint8_t append_answers[] = {10, 0, 0, 0, 1, 5, 0, 0, 5, 0, 1, 5, 0, 2, 5, 0, 0, 12, 0, 0, 13, 10, 0,
                                         0,  0, 2, 5, 0, 1, 5, 0, 2, 5, 0, 0, 5, 0, 0, 12, 0, 1, 12, 0, 0, 13};
enum { RULES = sizeof append_rules, BEFORE = RULES - 4, APPEND = BEFORE + sizeof append_query, ROOM = 45 };
enum { NIL, CONS, A };

/* app(X, Y, cons(a, nil)), put at the end of the rules. */
static void ask_append(struct pegplanet_builder *question) {
    pegplanet_put_query(question);
    pegplanet_put_goal(question, 0);
    pegplanet_put_variable(question, 0);
    pegplanet_put_variable(question, 1);
    pegplanet_put_function(question, CONS);
    pegplanet_put_function(question, A);
    pegplanet_put_function(question, NIL);
}

static size_t put_append(struct pegplanet_builder *question) {
    ask_append(question);
    return pegplanet_put_end(question);
}

static void queries(void) {
    uint8_t file[APPEND + 1], out[ROOM];
    struct pegplanet_builder question;
    size_t room, goals;
    uint64_t packed;
    /* with too little room nothing is written behind it, and the file of no bytes is refused */
    for (room = RULES; room <= APPEND; room++) {
        memcpy(file, append_rules, RULES);
        memset(file + RULES, 7, sizeof file - RULES);
        question = pegplanet_rules(file, RULES, room);
        same("rules with a place for a query", (uint64_t)question.good, 1);
        same("length of a query", put_append(&question), room < APPEND ? 0 : APPEND);
        same("byte behind the room", file[room], 7);
    }
    same("length of case A", APPEND, 70);
    same("rules of case A", (uint64_t)memcmp(file, append_rules, BEFORE), 0);
    same("query of case A", (uint64_t)memcmp(file + BEFORE, append_query, sizeof append_query), 0);
    same("the same query again", put_append(&question), APPEND);
    same("query of case A, again", (uint64_t)memcmp(file + BEFORE, append_query, sizeof append_query), 0);
    /* with a cut behind it, the query has its first answer alone */
    memcpy(file, append_rules, RULES);
    question = pegplanet_rules(file, RULES, sizeof file);
    ask_append(&question);
    pegplanet_put_cut(&question);
    same("length of a query with a cut", pegplanet_put_end(&question), APPEND + 1);
    packed = pegplanet_run(file, APPEND + 1, 5, 2, out, sizeof out);
    same("end of a query with a cut", pegplanet_number(packed), PEGPLANET_END_NO_MORE);
    same("bytes of a query with a cut", pegplanet_bytes(packed), 21);
    same("answer of a query with a cut", (uint64_t)memcmp(out, append_answers, 21), 0);
    same("a query with a cut and a unit less", pegplanet_number(pegplanet_run(file, APPEND + 1, 4, 2, out, sizeof out)), PEGPLANET_END_BUDGET);
    /* a query's cuts are goals; the seventeenth goal is one too many, and a number that has no two bytes is none */
    for (goals = 16; goals <= 17; goals++) {
        size_t goal;
        pegplanet_put_query(&question);
        for (goal = 0; goal < goals; goal++) {
            pegplanet_put_cut(&question);
        }
        same("cuts in a query", pegplanet_put_end(&question), goals == 16 ? BEFORE + 3 + 16 + 1 : 0);
    }
    pegplanet_put_query(&question);
    pegplanet_put_function(&question, 65536);
    same("a function of three bytes", pegplanet_put_end(&question), 0);
    /* no query of no goals stands at the end */
    question = pegplanet_rules(file, APPEND, sizeof file);
    same("rules with a query", (uint64_t)question.good, 0);
    same("a query in no place", put_append(&question), 0);
    question = pegplanet_rules(NULL, 0, 0);
    same("a query in no file", put_append(&question), 0);
}

/* The nodes and steps of an answer, one number each: a free variable as 100 and its number. */
static void walked(struct pegplanet_answer answer, const uint32_t *nodes, size_t node_count, const uint32_t *clauses, size_t clause_count) {
    struct pegplanet_node node;
    uint32_t clause;
    size_t count;
    for (count = 0; pegplanet_next_node(&answer.values, &node); count++) {
        same("node", node.number + (node.free ? 100 : 0), count < node_count ? nodes[count] : 999);
    }
    same("nodes", count, node_count);
    for (count = 0; pegplanet_next_step(&answer.steps, &clause); count++) {
        same("step", clause, count < clause_count ? clauses[count] : 999);
    }
    same("steps", count, clause_count);
    same("steps as counted", answer.step_count, clause_count);
}

static void answers(void) {
    static const uint32_t first[] = {NIL, CONS, A, NIL}, first_steps[] = {0};
    static const uint32_t second[] = {CONS, A, NIL, NIL}, second_steps[] = {1, 0};
    static const uint8_t free_ones[] = {10, 0, 2, 0, 0, 11, 0, 0, 5, 0, 1, 11, 0, 1, 11, 0, 0, 13};
    static const uint32_t free_nodes[] = {100, CONS, 101, 100};
    struct pegplanet_cursor cursor = pegplanet_answers(append_answers, ROOM), value;
    struct pegplanet_answer answer;
    size_t bytes;
    same("first answer", (uint64_t)pegplanet_next_answer(&cursor, &answer), 1);
    same("free variables", answer.free_count, 0);
    walked(answer, first, 4, first_steps, 1);
    /* X takes one node, Y three, and there is no third value */
    value = answer.values;
    same("value of X", (uint64_t)pegplanet_next_value(&value, append_rules, RULES), 1);
    same("nodes of X", (uint64_t)(value.at - answer.values.at), 3);
    same("value of Y", (uint64_t)pegplanet_next_value(&value, append_rules, RULES), 1);
    same("nodes of both", value.at == answer.values.end, 1);
    same("third value", (uint64_t)pegplanet_next_value(&value, append_rules, RULES), 0);
    same("second answer", (uint64_t)pegplanet_next_answer(&cursor, &answer), 1);
    walked(answer, second, 4, second_steps, 2);
    same("third answer", (uint64_t)pegplanet_next_answer(&cursor, &answer), 0);
    /* of a beginning, the whole answers are found and no more */
    for (bytes = 0; bytes <= ROOM; bytes++) {
        size_t found = 0;
        for (cursor = pegplanet_answers(append_answers, bytes); pegplanet_next_answer(&cursor, &answer); found++) {
        }
        same("answers of a beginning", found, bytes < 21 ? 0 : bytes < 45 ? 1 : 2);
    }
    cursor = pegplanet_answers(free_ones, sizeof free_ones);
    same("an answer with variables", (uint64_t)pegplanet_next_answer(&cursor, &answer), 1);
    same("its variables", answer.free_count, 2);
    walked(answer, free_nodes, 4, NULL, 0);
    cursor = pegplanet_answers(NULL, 0);
    same("answers of nothing", (uint64_t)pegplanet_next_answer(&cursor, &answer), 0);
    same("arity of cons", pegplanet_arity(append_rules, RULES, CONS), 2);
    same("arity of a predicate's number", pegplanet_arity(append_rules, RULES, 3), 0);
    same("arity beyond the file", pegplanet_arity(append_rules, RULES, 65535), 0);
}

static void copy_append(uint8_t *file) {
    memcpy(file, append_rules, BEFORE);
    memcpy(file + BEFORE, append_query, sizeof append_query);
}

/* Case A by name: the words of the result are the fields. */
static void asked(void) {
    static uint32_t words[PEGPLANET_SCRATCH_WORDS(APPEND, 10, 2, 8)];
    uint8_t file[APPEND], output[ROOM];
    struct pegplanet_request request = {file, APPEND, 10, 2, 8, 18, 3, words, sizeof words / sizeof *words, output, ROOM};
    struct pegplanet_result result;
    copy_append(file);
    result = pegplanet_ask(&request);
    same("end by name", result.number, PEGPLANET_END_NO_MORE);
    same("place by name", result.place, 0);
    same("answers by name", result.answers, 2);
    same("units by name", result.units, 18);
    same("bytes by name", result.bytes, 45);
    same("output by name", (uint64_t)memcmp(output, append_answers, ROOM), 0);
    request.file_len = 69;
    result = pegplanet_ask(&request);
    same("refusal by name", result.number, PEGPLANET_REFUSED_SHORT);
    same("its place by name", result.place, 69);
    same("its answers by name", result.answers + result.units + result.bytes, 0);
}

/* What was written with less stands first, and there is no less of it. */
static uint64_t again(const char *what, uint64_t before, struct pegplanet_result result, const uint8_t *output) {
    same(what, result.bytes >= before, 1);
    same(what, (uint64_t)memcmp(output, append_answers, result.bytes), 0);
    return result.bytes;
}

/* Case A, with each number from the least on, the others being as large as it needs (the work that it needs is the least there is); and with more
 * of all six. */
static void asked_again(void) {
    static uint32_t words[PEGPLANET_SCRATCH_WORDS(APPEND, 100, 20, 80)];
    uint8_t file[APPEND], output[10 * ROOM];
    const struct pegplanet_request enough = {file, APPEND, 10, 2, 8, 18, 3, words, sizeof words / sizeof *words, output, ROOM};
    struct pegplanet_request request = enough;
    uint64_t before[5] = {0, 0, 0, 0, 0};
    struct pegplanet_result result;
    uint32_t number;
    copy_append(file);
    for (number = 0; number <= ROOM; number++) {
        request = enough, request.budget = number;
        before[0] = again("more budget", before[0], pegplanet_ask(&request), output);
        request = enough, request.wanted = number;
        before[1] = again("more wanted", before[1], pegplanet_ask(&request), output);
        request = enough, request.out_len = number;
        before[2] = again("more output", before[2], pegplanet_ask(&request), output);
        if (number >= 1 && number <= 20) {
            request = enough, request.steps = number;
            before[3] = again("more steps", before[3], pegplanet_ask(&request), output);
            request = enough, request.cells = number;
            before[4] = again("more cells", before[4], pegplanet_ask(&request), output);
        }
    }
    for (number = 0; number < 5; number++) {
        same("all bytes in the end", before[number], ROOM);
    }
    request.cells = 100, request.steps = 20, request.work = 80, request.budget = 180, request.wanted = 30, request.out_len = 10 * ROOM;
    result = pegplanet_ask(&request);
    same("no more again", result.number, PEGPLANET_END_NO_MORE);
    same("units again", result.units, 18);
    same("bytes again", again("more of all", ROOM, result, output), ROOM);
}

int main(void) {
    constants();
    packed_numbers();
    texts();
    checks();
    runs();
    calls();
    queries();
    answers();
    asked();
    asked_again();
    return failed;
}
