/* The assembler: rules as a text in, the rule file or the names in it out.
 *
 *     assemble rules.txt > house.rules           the rule file
 *     assemble --names rules.txt > house.h       its functions and predicates by number, for a C program that puts questions
 *
 * A text declares each function, then each predicate, with its arity; clauses and one query follow. A full stop ends each of them:
 *
 *     function nil/0.   function cons/2.   predicate member/2.
 *     member(X, cons(X, Rest)).
 *     member(X, cons(Y, Rest)) :- member(X, Rest).
 *     ?- member(X, cons(nil, nil)).
 *
 * A name begins with a small letter, a variable with a capital; letters, digits and `_` follow. `!` is a cut, `?- .` asks nothing, and `%` begins
 * a remark. What is wrong is said as FILE:LINE:COLUMN, with what stands there and what is due.
 */
#include <ctype.h>
#include <stdarg.h>
#include <stdio.h>
#include <stdlib.h>
#include <string.h>

#include "pegplanet.h"

/* A word of the text. */
struct word {
    const char *start;
    int length;
};

/* Words by number: functions and predicates with their arities, or the variables of a clause. None are more than functions may be. */
struct names {
    const char *what;
    int count, most;
    struct word name[PEGPLANET_LIMIT_FUNCTIONS];
    int arity[PEGPLANET_LIMIT_FUNCTIONS];
};

static struct names functions = {.what = "functions", .most = PEGPLANET_LIMIT_FUNCTIONS};
static struct names predicates = {.what = "predicates", .most = PEGPLANET_LIMIT_PREDICATES};
static struct names variables = {.what = "variables", .most = PEGPLANET_LIMIT_VARIABLES};

static const char *source = "<stdin>";
static char text[1 << 22];
static const char *at = text;
static uint8_t file[PEGPLANET_LIMIT_FILE];
static struct pegplanet_builder rules = {.file = file, .room = sizeof file, .good = 1};

/* Says what is wrong at a place of the text. */
static void fail(const char *place, const char *form, ...) {
    const char *line = place;
    int lines = 1;
    va_list values;
    while (line > text && line[-1] != '\n') {
        line--;
    }
    for (const char *before = text; before < line; before++) {
        lines += *before == '\n';
    }
    fprintf(stderr, "%s:%d:%d: ", source, lines, (int)(place - line) + 1);
    va_start(values, form);
    vfprintf(stderr, form, values);
    va_end(values);
    fputc('\n', stderr);
    exit(1);
}

/* Passes over blanks and remarks. */
static const char *ahead(void) {
    while (*at != 0 && (isspace((unsigned char)*at) || *at == '%')) {
        at += *at == '%' ? strcspn(at, "\n") : 1;
    }
    return at;
}

static int in_word(char c) {
    return isalnum((unsigned char)c) || c == '_';
}

static struct word word_ahead(void) {
    struct word word = {ahead(), 0};
    while (in_word(word.start[word.length])) {
        word.length++;
    }
    return word;
}

/* What stands ahead is not what is due. */
static void fail_due(const char *due) {
    struct word found = word_ahead();
    int mark = strncmp(at, ":-", 2) == 0 || strncmp(at, "?-", 2) == 0 ? 2 : 1;
    if (*at == 0) {
        fail(at, "found the end of the text, due: %s", due);
    }
    if (!isprint((unsigned char)*at)) {
        fail(at, "found byte %02X, due: %s", (unsigned char)*at, due);
    }
    fail(at, "found %.*s, due: %s", found.length > 0 ? found.length : mark, at, due);
}

/* Takes a mark if it comes next. */
static int taken(const char *mark) {
    int there = strncmp(ahead(), mark, strlen(mark)) == 0;
    at += there ? strlen(mark) : 0;
    return there;
}

static void expect(const char *mark, const char *due) {
    if (!taken(mark)) {
        fail_due(due);
    }
}

static struct word take_word(int first(int), const char *due) {
    struct word word = word_ahead();
    if (word.length == 0 || !first((unsigned char)*word.start)) {
        fail_due(due);
    }
    at += word.length;
    return word;
}

static void at_most(const char *place, int count, int most, const char *what) {
    if (count > most) {
        fail(place, "more than %d %s", most, what);
    }
}

/* The number of a word; where it has none, the number after the last. */
static int find(const struct names *names, struct word word) {
    int number = 0;
    while (number < names->count &&
           (names->name[number].length != word.length || memcmp(names->name[number].start, word.start, (size_t)word.length) != 0)) {
        number++;
    }
    return number;
}

static void add(struct names *names, struct word word, int arity) {
    at_most(word.start, names->count + 1, names->most, names->what);
    names->name[names->count] = word;
    names->arity[names->count++] = arity;
}

static void put(unsigned kind, int number) {
    pegplanet_put(&rules, kind, (uint32_t)number);
    if (!rules.good) {
        fail(at, "the rule file has more than %d bytes", PEGPLANET_LIMIT_FILE);
    }
}

/* 1 where a word stands ahead with a name behind it, as in `function nil/0`; elsewhere the word is a name itself. */
static int declares(const char *keyword) {
    struct word word = word_ahead();
    const char *start = at;
    int letter;
    at += word.length;
    letter = isalpha((unsigned char)*ahead());
    at = start;
    return letter && (size_t)word.length == strlen(keyword) && memcmp(word.start, keyword, strlen(keyword)) == 0;
}

/* `function nil/0.` or `predicate app/3.` */
static void declare(struct names *names, unsigned kind) {
    at += word_ahead().length;
    struct word name = take_word(islower, "a name, which begins with a small letter");
    if (find(names, name) < names->count) {
        fail(name.start, "%.*s is declared twice among the %s", name.length, name.start, names->what);
    }
    expect("/", "/ and the arity");
    struct word digits = take_word(isdigit, "the arity, a number");
    int arity = 0;
    for (int digit = 0; digit < digits.length; digit++) {
        if (!isdigit((unsigned char)digits.start[digit])) {
            fail(digits.start, "found %.*s, due: the arity, a number", digits.length, digits.start);
        }
        arity = arity > PEGPLANET_LIMIT_ARITY ? arity : 10 * arity + digits.start[digit] - '0';
    }
    if (arity > PEGPLANET_LIMIT_ARITY) {
        fail(digits.start, "arity %.*s is out of range: 0 to %d", digits.length, digits.start, PEGPLANET_LIMIT_ARITY);
    }
    expect(".", ".");
    add(names, name, arity);
    put(kind, arity);
}

/* The number of a declared name. */
static int declared(const struct names *names, struct word name) {
    int number = find(names, name);
    if (number == names->count) {
        fail(name.start, "%.*s is not declared among the %s", name.length, name.start, names->what);
    }
    return number;
}

static void term(int level);

/* The arguments behind a name, as many as it is declared with. */
static void arguments(struct word name, int arity, int level) {
    int count = 0;
    if (taken("(")) {
        do {
            term(level);
            count++;
        } while (taken(","));
        expect(")", ", or )");
    }
    if (count != arity) {
        fail(name.start, "%.*s has %d argument%s here and is declared with %d", name.length, name.start, count, count == 1 ? "" : "s", arity);
    }
}

static void term(int level) {
    struct word word = take_word(isalpha, "a term");
    at_most(word.start, level, PEGPLANET_LIMIT_LEVELS, "levels");
    if (isupper((unsigned char)*word.start)) {
        int variable = find(&variables, word);
        if (variable == variables.count) {
            add(&variables, word, 0);
        }
        put(PEGPLANET_KIND_VARIABLE, variable);
    } else {
        int function = declared(&functions, word);
        put(PEGPLANET_KIND_APPLIED, function);
        arguments(word, functions.arity[function], level + 1);
    }
}

/* Goals with commas between them and the full stop behind; how many they are. */
static int goals(void) {
    int count = 0;
    do {
        ahead();
        at_most(at, ++count, PEGPLANET_LIMIT_GOALS, "goals");
        if (taken("!")) {
            put(PEGPLANET_KIND_CUT, 0);
        } else {
            struct word name = take_word(islower, "a goal");
            int predicate = declared(&predicates, name);
            put(PEGPLANET_KIND_GOAL, predicate);
            arguments(name, predicates.arity[predicate], 1);
        }
    } while (taken(","));
    expect(".", ", or .");
    return count;
}

static void clause(void) {
    struct word name = take_word(islower, "a clause or the query");
    int predicate = declared(&predicates, name), count = 0;
    size_t record = rules.length;
    variables.count = 0;
    put(PEGPLANET_KIND_CLAUSE, predicate << 16);
    arguments(name, predicates.arity[predicate], 1);
    if (taken(":-")) {
        count = goals();
    } else {
        expect(".", ":- or .");
    }
    file[record + 3] = (uint8_t)variables.count;
    file[record + 4] = (uint8_t)count;
}

static void query(void) {
    size_t record = rules.length;
    int count = 0;
    variables.count = 0;
    put(PEGPLANET_KIND_QUERY, 0);
    if (!taken(".")) {
        count = goals();
    }
    file[record + 1] = (uint8_t)variables.count;
    file[record + 2] = (uint8_t)count;
}

static void assemble(void) {
    int clauses = 0;
    while (declares("function")) {
        declare(&functions, PEGPLANET_KIND_FUNCTION);
    }
    while (declares("predicate")) {
        declare(&predicates, PEGPLANET_KIND_PREDICATE);
    }
    while (!taken("?-")) {
        if (declares("function") || declares("predicate")) {
            fail(at, "functions are declared first, then predicates, then clauses follow");
        }
        at_most(at, ++clauses, PEGPLANET_LIMIT_CLAUSES, "clauses");
        clause();
    }
    query();
    put(PEGPLANET_KIND_END, 0);
    if (*ahead() != 0) {
        fail_due("nothing behind the query");
    }
    uint64_t checked = pegplanet_check(file, rules.length);
    if (pegplanet_refused(checked)) {
        fail(at, "refused %u at %u: %s", pegplanet_number(checked), pegplanet_place(checked), pegplanet_text(pegplanet_number(checked)));
    }
}

/* Reads the whole text; a byte 0 in it would hide what stands behind. */
static void read_text(const char *name) {
    FILE *stream = name == NULL ? stdin : fopen(name, "rb");
    source = name == NULL ? source : name;
    size_t length = stream == NULL ? 0 : fread(text, 1, sizeof text, stream);
    if (stream == NULL || ferror(stream)) {
        perror(source);
        exit(2);
    }
    if (length == sizeof text) {
        fprintf(stderr, "%s: a text has less than %lu bytes\n", source, (unsigned long)sizeof text);
        exit(1);
    }
    if (strlen(text) < length) {
        fail(text + strlen(text), "found byte 00, which no text has");
    }
}

static void write_kind(const struct names *names, const char *kind, const char *number) {
    printf("enum {\n");
    for (int name = 0; name < names->count; name++) {
        printf("    %s_%.*s = %d,\n", kind, names->name[name].length, names->name[name].start, name);
    }
    printf("    %s = %d\n};\n\n/* The name of a %s; none for any other number. */\nstatic inline const char *name_of_%s(unsigned number) {\n", number,
           names->count, kind, kind);
    printf("    static const char *const names[] = {");
    for (int name = 0; name < names->count; name++) {
        printf("\"%.*s\", ", names->name[name].length, names->name[name].start);
    }
    printf("\"\"};\n    return number < sizeof names / sizeof *names ? names[number] : \"\";\n}\n\n");
}

/* The numbers of the names, and a test whether a rule file is the one that has them: it is told by its length and a sum over its bytes. */
static void write_names(void) {
    uint32_t sum = 0;
    for (size_t place = 0; place < rules.length; place++) {
        sum = sum * 16777619u ^ file[place];
    }
    printf("/* The names of a rule file by number. Made by assemble --names. */\n#ifndef RULE_NAMES_H\n#define RULE_NAMES_H\n\n");
    printf("#include <stddef.h>\n#include <stdint.h>\n\n");
    write_kind(&functions, "function", "FUNCTIONS");
    write_kind(&predicates, "predicate", "PREDICATES");
    printf("/* 1 for the rule file that has these names: another one may number them otherwise. */\n");
    printf("static inline int names_fit(const uint8_t *file, size_t length) {\n    uint32_t sum = 0;\n    size_t place;\n");
    printf("    for (place = 0; place < length; place++) {\n        sum = sum * 16777619u ^ file[place];\n    }\n");
    printf("    return length == %lu && sum == %luu;\n}\n\n#endif\n", (unsigned long)rules.length, (unsigned long)sum);
}

int main(int argc, char **argv) {
    static const char help[] = "assemble [FILE]           writes the rule file of a text, which is FILE or standard input\n"
                               "assemble --names [FILE]   writes a C header with the names of its functions and predicates\n"
                               "assemble --help           says this\n";
    int names = argc > 1 && strcmp(argv[1], "--names") == 0;
    const char *name = argc > 1 + names ? argv[1 + names] : NULL;
    if (argc == 2 && strcmp(argv[1], "--help") == 0) {
        return fputs(help, stdout) < 0;
    }
    if (argc > 2 + names || (name != NULL && name[0] == '-')) {
        fputs(help, stderr);
        return 2;
    }
    read_text(name);
    assemble();
    if (names) {
        write_names();
    } else {
        fwrite(file, 1, rules.length, stdout);
    }
    if (fflush(stdout) != 0 || ferror(stdout)) {
        perror("standard output");
        return 2;
    }
    return 0;
}
