/* The extractor: a toy score on standard input, the horn's part on standard output.
 *
 *     extract house.rules [BUDGET] < score.txt
 *
 * Of every two bars that follow each other it asks the house rules why a rest is split between them, and wants one answer. End 21: there is
 * a reason, and the part is split. End 20: there is none, and the rest runs on. After anything else nobody knows. At last it adds up the bars of
 * score and part, in number and in length. Where the machine did not say, or where the sums differ, it warns, writes no part and exits with
 * status 1.
 */
#include <stdio.h>
#include <stdlib.h>
#include <string.h>

#include "house.h"
#include "pegplanet.h"

/* What a bar may hold, and whose cue. */
static const unsigned holdings[] = {function_notes, function_rest, function_cue};
static const unsigned players[] = {function_oboe, function_clarinet, function_bassoon, function_trumpet};

/* A bar of the score. Its time is in eighths for counting, and as it is written. */
struct bar {
    unsigned holds, player, sign;
    int eighths;
    char time[8];
};

/* An entry of the part: bars that stand as one, and why they stand apart from those before. */
struct entry {
    const struct bar *first;
    int bars;
    unsigned why;
};

enum { MOST = 1000, QUESTION = 100 };
static struct bar score[MOST];
static struct entry part[MOST];
static int bars, entries;

static uint8_t file[PEGPLANET_RUN_FILE + QUESTION], out[1000];
static struct pegplanet_builder question;

static void need(int good, const char *what) {
    if (!good) {
        fprintf(stderr, "%s\n", what);
        exit(2);
    }
}

/* One of several functions, by its name. */
static unsigned one_of(const char *name, const unsigned *functions, size_t count) {
    size_t number = 0;
    while (number < count && strcmp(name_of_function(functions[number]), name) != 0) {
        number++;
    }
    need(number < count, name);
    return functions[number];
}

/* A line of the score is a time signature, `time 4/4` or `hidden 2/4`, or some bars: `notes 3`, `rest 5`, `cue oboe 2`. */
static void read_score(void) {
    char word[16], player[16];
    struct bar bar = {function_rest, 0, function_shown, 0, ""};
    int beats, unit, count;
    while (scanf("%15s", word) == 1) {
        if (word[0] == '#') {
            need(scanf("%*[^\n]") >= 0, "a remark");
        } else if (strcmp(word, "time") == 0 || strcmp(word, "hidden") == 0) {
            need(scanf("%7s", bar.time) == 1 && sscanf(bar.time, "%d/%d", &beats, &unit) == 2, "a time is due");
            need(beats > 0 && beats < 100 && (unit == 1 || unit == 2 || unit == 4 || unit == 8), bar.time);
            bar.eighths = beats * 8 / unit;
            bar.sign = word[0] == 'h' ? function_hidden : function_shown;
        } else {
            bar.holds = one_of(word, holdings, sizeof holdings / sizeof *holdings);
            if (bar.holds == function_cue) {
                need(scanf("%15s", player) == 1, "a player is due");
                bar.player = one_of(player, players, sizeof players / sizeof *players);
            }
            need(scanf("%d", &count) == 1 && count > 0 && count <= MOST - bars && bar.eighths > 0, "a number of bars is due, after a time");
            for (; count > 0; count--, bar.sign = function_same) {
                score[bars++] = bar;
            }
        }
    }
}

/* The house rules come with a query of no goals, in whose place each question is put. house.h has their names by number, and says whether they
 * are the rules that it was made from. */
static void read_rules(const char *name) {
    FILE *stream = fopen(name, "rb");
    need(stream != NULL, name);
    size_t length = fread(file, 1, sizeof file, stream);
    fclose(stream);
    need(names_fit(file, length), "these are not the house rules that the extractor was built for");
    question = pegplanet_rules(file, length, sizeof file);
    need(question.good, "the house rules have no place for a question");
}

static void put_bar(const struct bar *bar) {
    pegplanet_put_function(&question, function_bar);
    pegplanet_put_function(&question, bar->holds);
    if (bar->holds == function_cue) {
        pegplanet_put_function(&question, bar->player);
    }
    pegplanet_put_function(&question, bar->sign);
}

/* The question ?- split(Why, before, after). */
static uint64_t ask(const struct bar *before, const struct bar *after, uint32_t budget) {
    pegplanet_put_query(&question);
    pegplanet_put_goal(&question, predicate_split);
    pegplanet_put_variable(&question, 0);
    put_bar(before);
    put_bar(after);
    return pegplanet_run(file, pegplanet_put_end(&question), budget, 1, out, sizeof out);
}

/* The reason in the answer: the value of Why. */
static unsigned reason(uint64_t packed) {
    struct pegplanet_cursor answers = pegplanet_answers(out, pegplanet_bytes(packed));
    struct pegplanet_answer answer;
    struct pegplanet_node why;
    need(pegplanet_next_answer(&answers, &answer) && pegplanet_next_node(&answer.values, &why) && !why.free, "an answer with a reason is due");
    return why.number;
}

/* Bars stay together until the house rules split them. 0 where the machine did not say. */
static int extract(uint32_t budget) {
    part[entries++] = (struct entry){&score[0], 1, function_new_time};
    for (int bar = 1; bar < bars; bar++) {
        uint64_t packed = ask(&score[bar - 1], &score[bar], budget);
        uint32_t number = pegplanet_number(packed);
        if (!pegplanet_answered(packed)) {
            fprintf(stderr, "warning: bars %d and %d: %s %u, %s; no part is written\n", bar, bar + 1,
                    pegplanet_refused(packed) ? "the question was refused," : "the machine was stopped, end", number, pegplanet_text(number));
            return 0;
        }
        if (number == PEGPLANET_END_NO_MORE) {
            part[entries - 1].bars++;
        } else {
            part[entries++] = (struct entry){&score[bar], 1, reason(packed)};
        }
    }
    return 1;
}

/* What is added up of score or part. */
struct total {
    int bars, eighths;
};

static struct total total_of_score(void) {
    struct total total = {bars, 0};
    for (int bar = 0; bar < bars; bar++) {
        total.eighths += score[bar].eighths;
    }
    return total;
}

/* A player counts the bars of an entry by the time at its front: what is added up for the part is what will be counted. */
static struct total total_of_part(void) {
    struct total total = {0, 0};
    for (int entry = 0; entry < entries; entry++) {
        total.bars += part[entry].bars;
        total.eighths += part[entry].bars * part[entry].first->eighths;
    }
    return total;
}

/* A name as players read it, without underscores. */
static const char *shown(unsigned function) {
    static char name[32];
    snprintf(name, sizeof name, "%s", name_of_function(function));
    for (char *mark; (mark = strchr(name, '_')) != NULL; *mark = ' ') {
    }
    return name;
}

static void write_part(void) {
    for (int entry = 0; entry < entries; entry++) {
        const struct bar *bar = part[entry].first;
        printf("bar %3d  %4s  %-5s %2d  %-8s  %s\n", (int)(bar - score) + 1, bar->sign == function_same ? "" : bar->time,
               name_of_function(bar->holds), part[entry].bars, bar->holds == function_cue ? name_of_function(bar->player) : "",
               shown(part[entry].why));
    }
}

static void write_total(FILE *stream, const char *of, struct total total) {
    fprintf(stream, "%-6s %d bars, %d eighths\n", of, total.bars, total.eighths);
}

int main(int argc, char **argv) {
    char *rest = "";
    need(argc == 2 || argc == 3, "extract house.rules [BUDGET] < score.txt");
    uint32_t budget = argc == 3 ? (uint32_t)strtoul(argv[2], &rest, 10) : 1000;
    need(*rest == 0, "a budget is a number");
    read_rules(argv[1]);
    read_score();
    need(bars > 0, "a score is due");
    if (!extract(budget)) {
        return 1;
    }
    struct total in_score = total_of_score(), in_part = total_of_part();
    int agree = in_part.bars == in_score.bars && in_part.eighths == in_score.eighths;
    if (agree) {
        write_part();
    } else {
        fprintf(stderr, "warning: score and part do not agree; no part is written\n");
    }
    write_total(agree ? stdout : stderr, "score:", in_score);
    write_total(agree ? stdout : stderr, "part:", in_part);
    need(fflush(stdout) == 0 && !ferror(stdout), "the part could not be written");
    return !agree;
}
