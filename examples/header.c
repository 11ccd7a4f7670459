/* Checks what gaffmedlar.h does by itself: NULL for what has length 0, the words of the answers, the part of a file as a
 * struct, on the examples of one step's bytes, and the reply of a writer, on the examples of written files. Then the services
 * on grammars that say their start, and on names of up to three bytes; the choices, the sets with the count of choices in one
 * call, and how many readings there are and the k-th of them, on examples.
 *
 * Build, in the repository's root:
 *     tools/build library
 *     cc -O2 -Iinclude -o target/header_c examples/header.c target/staticlib/libgaffmedlar.a
 */
#include "gaffmedlar.h"

#include <inttypes.h>
#include <stdio.h>
#include <string.h>

static int faults;

static void due(const char *what, int answer, int number)
{
    if (answer != number) {
        printf("%s: %d (%s), and %d (%s) is due\n", what, answer, gaffmedlar_words((uint8_t)answer), number,
               gaffmedlar_words((uint8_t)number));
        faults++;
    }
}

/* What is due for a file and a position: the part, and the number. */
static void due_step(const char *what, const uint8_t *history, size_t history_len, size_t position, size_t start,
                     size_t length, int number)
{
    struct gaffmedlar_part part = gaffmedlar_step_bytes(history, history_len, position);
    if (part.start != start || part.length != length) {
        printf("%s, position %zu: %zu bytes from %zu on, and %zu from %zu on are due\n", what, position, part.length,
               part.start, length, start);
        faults++;
    }
    due(what, gaffmedlar_step_refusal(history, history_len, position), number);
}

/* The file of 1,024 tokens, three bytes each: open 65,535 and close 65,534, 512 times. */
static size_t three_byte_steps(uint8_t *history)
{
    size_t at = 0;
    history[at++] = 128;
    history[at++] = 8;
    for (int step = 0; step < 512; step++) {
        static const uint8_t tokens[] = {253, 255, 15, 250, 255, 15};
        memcpy(history + at, tokens, sizeof tokens);
        at += sizeof tokens;
    }
    return at;
}

static void steps(void)
{
    static const uint8_t one[] = {3, 1, 0, 2}, inside[] = {6, 1, 1, 2, 1, 2, 2}, wide[] = {5, 0, 161, 1, 252, 1, 134, 1, 0},
                         wider[] = {3, 129, 226, 9, 172, 2, 254, 255, 15}, still_open[] = {1, 1};
    static const size_t beside[] = {1, 2, 3, 4, (size_t)1 << 31, SIZE_MAX / 2 + 1, SIZE_MAX};
    static uint8_t full[GAFFMEDLAR_HISTORY_BYTES_MAX];

    due_step("one step", one, sizeof one, 0, 1, 3, GAFFMEDLAR_OK);
    for (size_t i = 0; i < sizeof beside / sizeof beside[0]; i++)
        due_step("no open", one, sizeof one, beside[i], 0, 0, GAFFMEDLAR_REFUSED_NOT_AN_OPEN);
    due_step("steps inside", inside, sizeof inside, 0, 1, 6, GAFFMEDLAR_OK);
    due_step("steps inside", inside, sizeof inside, 1, 2, 2, GAFFMEDLAR_OK);
    due_step("steps inside", inside, sizeof inside, 2, 0, 0, GAFFMEDLAR_REFUSED_NOT_AN_OPEN);
    due_step("steps inside", inside, sizeof inside, 3, 4, 2, GAFFMEDLAR_OK);
    due_step("two bytes", wide, sizeof wide, 1, 2, 6, GAFFMEDLAR_OK);
    due_step("three bytes", wider, sizeof wider, 0, 1, 8, GAFFMEDLAR_OK);
    due_step("still open", still_open, sizeof still_open, 5, 0, 0, GAFFMEDLAR_REFUSED_STILL_OPEN);
    due_step("no history", NULL, 0, 0, 0, 0, GAFFMEDLAR_REFUSED_BYTES_END);
    size_t full_len = three_byte_steps(full);
    for (size_t step = 0; step < 512; step++)
        due_step("full", full, full_len, 2 * step, 2 + 6 * step, 6, GAFFMEDLAR_OK);
    due_step("full", full, full_len, 1024, 0, 0, GAFFMEDLAR_REFUSED_NOT_AN_OPEN);
}

typedef struct gaffmedlar_written writer(const uint32_t *, size_t, uint8_t *, size_t);

#define FILLING 170 /* what every byte holds before a call */
#define BESIDE 16   /* bytes on each side of a buffer that are not its own */

/* What is due for the numbers of a file and a buffer of room bytes: the file, with number 0; or no byte, with the number. */
static void due_written(const char *what, writer *write, const uint32_t *numbers, size_t numbers_len, size_t room,
                        const uint8_t *file, size_t file_len, int number)
{
    static uint8_t memory[BESIDE + GAFFMEDLAR_HISTORY_BYTES_MAX + 2 * BESIDE];
    memset(memory, FILLING, sizeof memory);
    struct gaffmedlar_written written = write(numbers, numbers_len, room > 0 ? memory + BESIDE : NULL, room);
    due(what, written.answer, number);
    if (written.length != file_len) {
        printf("%s: length %zu, and %zu is due\n", what, written.length, file_len);
        faults++;
    }
    for (size_t i = 0; i < sizeof memory; i++) {
        int due_byte = i >= BESIDE && i < BESIDE + file_len ? file[i - BESIDE] : FILLING;
        if (memory[i] != due_byte) {
            printf("%s: byte %td of the buffer is %d, and %d is due\n", what, (ptrdiff_t)i - BESIDE, memory[i], due_byte);
            faults++;
        }
    }
}

/* A buffer of each length up to some bytes more than the file has: 15 until it has room. */
static void due_at_all_lengths(const char *what, writer *write, const uint32_t *numbers, size_t numbers_len,
                               const uint8_t *file, size_t file_len)
{
    for (size_t room = 0; room < file_len; room++)
        due_written(what, write, numbers, numbers_len, room, NULL, 0, GAFFMEDLAR_REFUSED_BUFFER_SHORT);
    for (size_t room = file_len; room <= file_len + BESIDE; room++)
        due_written(what, write, numbers, numbers_len, room, file, file_len, GAFFMEDLAR_OK);
}

static void refused(const char *what, writer *write, const uint32_t *numbers, size_t numbers_len, int number)
{
    due_written(what, write, numbers, numbers_len, GAFFMEDLAR_HISTORY_BYTES_MAX, NULL, 0, number);
    due_written(what, write, numbers, numbers_len, 0, NULL, 0, number);
}

/* The rules of document 01's grammar G, each number a byte; and G with its stages 0 and 1 exchanged, which starts at stage 1. */
#define RULES_OF_G 0, 0, 2, 0, 0, 1, 0, 0, 2, 0, 0, 2, 0, 0, 1, 1, 0, 1, 0, 1, 1, 2, 0, 2, 0, 2
#define G_EXCHANGED 0, 3, 1, 7, 0, 1, 2, 1, 0, 0, 0, 1, 2, 1, 0, 2, 0, 1, 1, 0, 0, 0, 0, 0, 1, 2, 0, 2, 0, 2

/* Numbers that don't say the start, and a number behind them: the file says it. */
static void written_with_the_start(void)
{
    static const uint32_t g[29] = {3, 7, RULES_OF_G, 5};
    static const uint8_t file[30] = {0, 3, 0, 7, RULES_OF_G};
    static const uint32_t large_name[] = {1, 1, 1, 0, 65536, 0}, large_close[] = {1, 1, 2, 0, 0, 0, 2097157, 0},
                          twice[] = {1, 128, 0, 0, 0, 0}, large_count[] = {4294967295u, 1, 0, 0};

    due_at_all_lengths("G", gaffmedlar_write_grammar, g, 28, file, sizeof file);
    refused("G without its last number", gaffmedlar_write_grammar, g, 27, GAFFMEDLAR_REFUSED_BYTES_END);
    refused("G and a number behind it", gaffmedlar_write_grammar, g, 29, GAFFMEDLAR_REFUSED_BYTES_FOLLOW);
    refused("a large name", gaffmedlar_write_grammar, large_name, 6, GAFFMEDLAR_REFUSED_NAME);
    refused("a large close", gaffmedlar_write_grammar, large_close, 8, GAFFMEDLAR_REFUSED_NAME);
    refused("a rule twice", gaffmedlar_write_grammar, twice, 6, GAFFMEDLAR_REFUSED_RULE_TWICE);
    refused("a large stage count", gaffmedlar_write_grammar, large_count, 4, GAFFMEDLAR_REFUSED_STAGE_COUNT);
    refused("no element", gaffmedlar_write_grammar, NULL, 0, GAFFMEDLAR_REFUSED_BYTES_END);
}

/* Numbers that say the start, and a number behind them: they are the file. */
static void written_as_they_are(void)
{
    static const uint32_t numbers[31] = {G_EXCHANGED, 5};
    static const uint8_t file[30] = {G_EXCHANGED};
    static const uint32_t no_stage[] = {0, 0, 0, 1}, above[] = {0, 1, 1, 0}, large_start[] = {0, 1, 4294967295u, 1, 0, 0},
                          no_rule[] = {0, 1, 0, 0};

    due_at_all_lengths("G exchanged", gaffmedlar_write_grammar, numbers, 30, file, sizeof file);
    refused("G exchanged, too few", gaffmedlar_write_grammar, numbers, 29, GAFFMEDLAR_REFUSED_BYTES_END);
    refused("G exchanged, too many", gaffmedlar_write_grammar, numbers, 31, GAFFMEDLAR_REFUSED_BYTES_FOLLOW);
    refused("a 0 alone", gaffmedlar_write_grammar, no_stage, 1, GAFFMEDLAR_REFUSED_BYTES_END);
    refused("no stage", gaffmedlar_write_grammar, no_stage, 4, GAFFMEDLAR_REFUSED_STAGE_COUNT);
    refused("a start above", gaffmedlar_write_grammar, above, 4, GAFFMEDLAR_REFUSED_STAGE);
    refused("a large start", gaffmedlar_write_grammar, large_start, 6, GAFFMEDLAR_REFUSED_STAGE);
    refused("no rule", gaffmedlar_write_grammar, no_rule, 4, GAFFMEDLAR_REFUSED_RULE_COUNT);
}

/* 128 rules of ten bytes, with opens from 65,535 down and close 65,535: with the start, and without it. */
static void longest_grammars(void)
{
    static uint32_t numbers[GAFFMEDLAR_GRAMMAR_NUMBERS_MAX] = {0, 32, 31, 128};
    static uint8_t file[GAFFMEDLAR_GRAMMAR_BYTES_MAX] = {0, 32, 31, 128, 1};

    for (uint8_t rule = 0; rule < 128; rule++) {
        const uint32_t six[6] = {2, rule % 32, 65535u - rule, 31, 65535, 0};
        const uint8_t ten[10] = {2, rule % 32, 255 - rule, 255, 3, 31, 255, 255, 3, 0};
        memcpy(numbers + 4 + 6 * rule, six, sizeof six);
        memcpy(file + 5 + 10 * rule, ten, sizeof ten);
    }
    due_at_all_lengths("the longest grammar", gaffmedlar_write_grammar, numbers, GAFFMEDLAR_GRAMMAR_NUMBERS_MAX, file,
                       sizeof file);
    /* from its third element on: stage count and rule count */
    numbers[2] = 32;
    file[2] = 0;
    due_at_all_lengths("the longest without a start", gaffmedlar_write_grammar, numbers + 2,
                       GAFFMEDLAR_GRAMMAR_NUMBERS_MAX - 2, file, sizeof file);
}

static void written_histories(void)
{
    static const uint32_t wide[] = {3, 161, 16384, 262142}, still_open[] = {2, 1, 1, 0}, behind[] = {1, 0, 0},
                          large[] = {1, 262144}, larger[] = {1, 4294967292u}, none[] = {0};
    static const uint8_t wide_file[] = {3, 161, 1, 128, 128, 1, 254, 255, 15}, none_file[] = {0};
    static uint32_t full[GAFFMEDLAR_HISTORY_NUMBERS_MAX] = {1024};
    static uint8_t full_file[GAFFMEDLAR_HISTORY_BYTES_MAX];

    due_at_all_lengths("two and three bytes", gaffmedlar_write_history, wide, 4, wide_file, sizeof wide_file);
    due_at_all_lengths("no token", gaffmedlar_write_history, none, 1, none_file, sizeof none_file);
    refused("still open and a number behind", gaffmedlar_write_history, still_open, 4, GAFFMEDLAR_REFUSED_STILL_OPEN);
    refused("a number behind", gaffmedlar_write_history, behind, 3, GAFFMEDLAR_REFUSED_BYTES_FOLLOW);
    refused("a large token", gaffmedlar_write_history, large, 2, GAFFMEDLAR_REFUSED_TOKEN);
    refused("a larger token", gaffmedlar_write_history, larger, 2, GAFFMEDLAR_REFUSED_TOKEN);
    refused("no element", gaffmedlar_write_history, NULL, 0, GAFFMEDLAR_REFUSED_BYTES_END);
    for (size_t i = 1; i < GAFFMEDLAR_HISTORY_NUMBERS_MAX; i++)
        full[i] = i % 2 == 1 ? 262141 : 262138;
    due_at_all_lengths("the longest history", gaffmedlar_write_history, full, GAFFMEDLAR_HISTORY_NUMBERS_MAX, full_file,
                       three_byte_steps(full_file));
}

static void due_count(const char *what, uint32_t count, uint32_t is_due)
{
    if (count != is_due) {
        printf("%s: %u, and %u is due\n", what, (unsigned)count, (unsigned)is_due);
        faults++;
    }
}

/* What is due for a grammar of three stages and seven rules and the history 3 1 0 2. For each of the four positions it has the
 * first reading and the next one, with 9 where none is written, the stop mark, and the first word of the set. */
struct start_due {
    const char *what;
    const uint8_t *grammar;
    size_t grammar_len;
    int first_answer, next_answer;
    uint8_t first[4], next[4], marks[4];
    uint32_t words[4], choices;
};

static void due_start(const struct start_due *is)
{
    static const uint8_t history[] = {3, 1, 0, 2}, calls[] = {0, 1};
    uint8_t first[4] = {9, 9, 9, 9}, next[4], listed[4] = {9, 9, 9, 9}, marks[4] = {9, 9, 9, 9}, answers[2] = {9, 9};
    uint32_t words[16] = {9};
    struct gaffmedlar_grammar counts = gaffmedlar_grammar_check(is->grammar, is->grammar_len);
    struct gaffmedlar_count choices = gaffmedlar_choice_count(is->grammar, is->grammar_len, history, sizeof history);
    struct gaffmedlar_count sets = gaffmedlar_sets(is->grammar, is->grammar_len, history, sizeof history, words, 16);

    due(is->what, counts.answer, GAFFMEDLAR_OK);
    due_count(is->what, counts.stages, 3);
    due_count(is->what, counts.rules, 7);
    due(is->what, choices.answer, GAFFMEDLAR_OK);
    due_count(is->what, choices.count, is->choices);
    due(is->what, sets.answer, GAFFMEDLAR_OK);
    due_count(is->what, sets.count, is->choices);
    due(is->what, gaffmedlar_first_reading(is->grammar, is->grammar_len, history, sizeof history, first, 4), is->first_answer);
    memcpy(next, first, sizeof next);
    due(is->what, gaffmedlar_next_reading(is->grammar, is->grammar_len, history, sizeof history, next, 4), is->next_answer);
    due(is->what,
        gaffmedlar_run_calls(is->grammar, is->grammar_len, history, sizeof history, calls, 2, answers, 2, listed, 4),
        GAFFMEDLAR_OK);
    due(is->what, answers[0], is->first_answer);
    due(is->what, answers[1], is->next_answer);
    due(is->what, gaffmedlar_stop_marks(is->grammar, is->grammar_len, history, sizeof history, marks, 4), GAFFMEDLAR_OK);
    for (size_t p = 0; p < 4; p++) {
        due_count(is->what, first[p], is->first[p]);
        due_count(is->what, next[p], is->next[p]);
        due_count(is->what, listed[p], is->next[p]);
        due_count(is->what, marks[p], is->marks[p]);
        due_count(is->what, words[4 * p], is->words[p]);
    }
}

/* What G gives, and what a grammar without a reading gives. */
#define AS_G GAFFMEDLAR_OK, GAFFMEDLAR_OK, {1, 3, 4, 0}, {2, 5, 6, 0}, {1, 0, 0, 1}, {6, 40, 80, 1}, 1
#define NONE                                                                                                           \
    GAFFMEDLAR_NO_READING, GAFFMEDLAR_REFUSED_NOT_A_READING, {9, 9, 9, 9}, {9, 9, 9, 9}, {1, 0, 0, 0}, {0, 0, 0, 0}, 0

static void starts(void)
{
    static const uint8_t short_form[] = {3, 7, RULES_OF_G}, from_0[] = {0, 3, 0, 7, RULES_OF_G},
                         from_1[] = {0, 3, 1, 7, RULES_OF_G}, exchanged[] = {G_EXCHANGED};
    static const struct start_due all[] = {{"G", short_form, sizeof short_form, AS_G},
                                           {"G from stage 0", from_0, sizeof from_0, AS_G},
                                           {"G exchanged", exchanged, sizeof exchanged, AS_G},
                                           {"G from stage 1", from_1, sizeof from_1, NONE}};
    static const uint8_t heads[][4] = {{0, 0, 0, 0}, {0, 3, 3, 0}, {0, 3, 2, 0}, {128, 0, 3, 2}};
    static const int numbers[] = {GAFFMEDLAR_REFUSED_STAGE_COUNT, GAFFMEDLAR_REFUSED_STAGE, GAFFMEDLAR_REFUSED_RULE_COUNT,
                                  GAFFMEDLAR_REFUSED_NUMBER_FORM};

    for (size_t i = 0; i < sizeof all / sizeof all[0]; i++)
        due_start(&all[i]);
    for (size_t i = 0; i < sizeof heads / sizeof heads[0]; i++)
        due("a head", gaffmedlar_grammar_check(heads[i], 4).answer, numbers[i]);
    due("a 0 alone", gaffmedlar_grammar_check(heads[0], 1).answer, GAFFMEDLAR_REFUSED_BYTES_END);
}

/* Bytes that are both a grammar and a history, each refused by this number. */
static void refused_numbers(void)
{
    static const struct {
        uint8_t bytes[4];
        size_t length;
        int number;
    } all[] = {{{128}, 1, GAFFMEDLAR_REFUSED_BYTES_END},
               {{128, 0}, 2, GAFFMEDLAR_REFUSED_NUMBER_FORM},
               {{128, 128}, 2, GAFFMEDLAR_REFUSED_BYTES_END},
               {{128, 128, 0}, 3, GAFFMEDLAR_REFUSED_NUMBER_FORM},
               {{128, 128, 128}, 3, GAFFMEDLAR_REFUSED_NUMBER_FORM},
               {{128, 128, 128, 1}, 4, GAFFMEDLAR_REFUSED_NUMBER_FORM}};

    for (size_t i = 0; i < sizeof all / sizeof all[0]; i++) {
        due("a grammar's number", gaffmedlar_grammar_check(all[i].bytes, all[i].length).answer, all[i].number);
        due("a history's number", gaffmedlar_history_check(all[i].bytes, all[i].length).answer, all[i].number);
    }
}

/* Names and tokens at their limits and above. */
static void wide_limits(void)
{
    static const uint8_t largest[] = {1, 1, 1, 0, 255, 255, 3, 0}, above[] = {1, 1, 1, 0, 128, 128, 4, 0},
                         above_close[] = {1, 1, 2, 0, 255, 255, 3, 0, 128, 128, 4, 0}, mark[] = {1, 252, 255, 15},
                         step[] = {2, 253, 255, 15, 254, 255, 15}, kind_3[] = {1, 255, 255, 15},
                         token[] = {1, 128, 128, 16}, count[] = {128, 128, 1};

    due("the largest name", gaffmedlar_grammar_check(largest, sizeof largest).answer, GAFFMEDLAR_OK);
    due("a name above", gaffmedlar_grammar_check(above, sizeof above).answer, GAFFMEDLAR_REFUSED_NAME);
    due("a close above", gaffmedlar_grammar_check(above_close, sizeof above_close).answer, GAFFMEDLAR_REFUSED_NAME);
    due("the largest mark", gaffmedlar_history_check(mark, sizeof mark).answer, GAFFMEDLAR_OK);
    due("the largest step", gaffmedlar_history_check(step, sizeof step).answer, GAFFMEDLAR_OK);
    due("a kind of 3", gaffmedlar_history_check(kind_3, sizeof kind_3).answer, GAFFMEDLAR_REFUSED_TOKEN);
    due("a token above", gaffmedlar_history_check(token, sizeof token).answer, GAFFMEDLAR_REFUSED_TOKEN);
    due("a token count of three bytes", gaffmedlar_history_check(count, sizeof count).answer,
        GAFFMEDLAR_REFUSED_TOKEN_COUNT);
}

/* What is due for a grammar of one stage, whose rule 0 ends it and whose rules 1 and 2 go on, and for a history: one reading,
 * with the rule at position 0 and rule 0 at the others; or none, with rule 0. */
static void due_rule(const char *what, const uint8_t *grammar, size_t grammar_len, const uint8_t *history,
                     size_t history_len, uint8_t rule)
{
    uint8_t reading[3] = {9, 9, 9}, marks[3] = {9, 9, 9}, answer = 9;
    const uint8_t call = 1;
    uint32_t words[12] = {9};
    size_t n = gaffmedlar_history_check(history, history_len).tokens;
    struct gaffmedlar_count sets = gaffmedlar_sets(grammar, grammar_len, history, history_len, words, 12);
    int first = rule == 0 ? GAFFMEDLAR_NO_READING : GAFFMEDLAR_OK;

    due(what, gaffmedlar_first_reading(grammar, grammar_len, history, history_len, reading, 3), first);
    due_count(what, reading[0], rule == 0 ? 9 : rule);
    for (uint8_t other = 1; other <= 2; other++) {
        uint8_t held[3] = {other, 0, 0};
        int next = other == rule ? GAFFMEDLAR_NO_FURTHER : GAFFMEDLAR_REFUSED_NOT_A_READING;
        due(what, gaffmedlar_next_reading(grammar, grammar_len, history, history_len, held, 3), next);
        due(what,
            gaffmedlar_run_calls(grammar, grammar_len, history, history_len, &call, 1, &answer, 1, held, sizeof held),
            GAFFMEDLAR_OK);
        due(what, answer, next);
    }
    due(what, sets.answer, GAFFMEDLAR_OK);
    due_count(what, words[0], rule == 0 ? 0 : 1u << rule);
    due_count(what, sets.count, 0);
    due_count(what, gaffmedlar_choice_count(grammar, grammar_len, history, history_len).count, 0);
    due(what, gaffmedlar_stop_marks(grammar, grammar_len, history, history_len, marks, 3), GAFFMEDLAR_OK);
    due_count(what, marks[n], rule != 0);
}

#define DUE_RULE(what, grammar, history, rule) due_rule(what, grammar, sizeof grammar, history, sizeof history, rule)

/* Names that differ above bit 8 or above bit 14 alone: marks 1 and 257, marks 40,000 and 7,232, opens 1 and 16,385, closes 65,535
 * and 32,767. */
static void wide_names(void)
{
    static const uint8_t marks[] = {1, 3, 0, 0, 1, 0, 1, 0, 1, 0, 129, 2, 0},
                         wide_marks[] = {1, 3, 0, 0, 1, 0, 192, 184, 2, 0, 1, 0, 192, 56, 0},
                         opens[] = {1, 3, 0, 0, 2, 0, 1, 0, 0, 0, 2, 0, 129, 128, 1, 0, 0, 0},
                         closes[] = {1, 3, 0, 0, 2, 0, 192, 184, 2, 0, 255, 255, 3, 0,
                                     2, 0, 192, 184, 2, 0, 255, 255, 1, 0};
    static const uint8_t mark_1[] = {1, 4}, mark_257[] = {1, 132, 8}, mark_16385[] = {1, 132, 128, 4},
                         mark_65281[] = {1, 132, 248, 15}, mark_40000[] = {1, 128, 226, 9}, mark_7232[] = {1, 128, 226, 1};
    static const uint8_t open_1[] = {2, 5, 2}, open_16385[] = {2, 133, 128, 4, 2}, open_257[] = {2, 133, 8, 2},
                         open_32769[] = {2, 133, 128, 8, 2};
    static const uint8_t close_65535[] = {2, 129, 226, 9, 254, 255, 15}, close_32767[] = {2, 129, 226, 9, 254, 255, 7},
                         close_65279[] = {2, 129, 226, 9, 254, 247, 15}, close_16383[] = {2, 129, 226, 9, 254, 255, 3};

    DUE_RULE("mark 1", marks, mark_1, 1);
    DUE_RULE("mark 257", marks, mark_257, 2);
    DUE_RULE("mark 16,385", marks, mark_16385, 0);
    DUE_RULE("mark 65,281", marks, mark_65281, 0);
    DUE_RULE("mark 40,000", wide_marks, mark_40000, 1);
    DUE_RULE("mark 7,232", wide_marks, mark_7232, 2);
    DUE_RULE("open 1", opens, open_1, 1);
    DUE_RULE("open 16,385", opens, open_16385, 2);
    DUE_RULE("open 257", opens, open_257, 0);
    DUE_RULE("open 32,769", opens, open_32769, 0);
    DUE_RULE("close 65,535", closes, close_65535, 1);
    DUE_RULE("close 32,767", closes, close_32767, 2);
    DUE_RULE("close 65,279", closes, close_65279, 0);
    DUE_RULE("close 16,383", closes, close_16383, 0);
}

/* What is due for two files that pass: so many choices, by either function, and a second reading exactly where there is one. */
static void due_choices(const char *what, const uint8_t *grammar, size_t grammar_len, const uint8_t *history,
                        size_t history_len, uint32_t choices)
{
    uint8_t reading[5];
    uint32_t words[20];
    struct gaffmedlar_count counted = gaffmedlar_choice_count(grammar, grammar_len, history, history_len);
    struct gaffmedlar_count sets = gaffmedlar_sets(grammar, grammar_len, history, history_len, words, 20);
    int several =
        gaffmedlar_first_reading(grammar, grammar_len, history, history_len, reading, sizeof reading) == GAFFMEDLAR_OK &&
        gaffmedlar_next_reading(grammar, grammar_len, history, history_len, reading, sizeof reading) == GAFFMEDLAR_OK;

    due(what, counted.answer, GAFFMEDLAR_OK);
    due_count(what, counted.count, choices);
    due(what, sets.answer, GAFFMEDLAR_OK);
    due_count(what, sets.count, choices);
    due_count(what, several, choices > 0);
}

#define DUE_CHOICES(what, grammar, history, choices)                                                                   \
    due_choices(what, grammar, sizeof grammar, history, sizeof history, choices)

/* Two rules of one stage alone are a choice. In the sets stand: by `echo` the rules 0 and 1 of stage 0, then 2 of stage 1 and 3 of
 * stage 2; by `within` 0 and 1 of stage 0, then 2 and 3 of stage 1 and 5 of stage 2, then 4 of stage 1 and 6 of stage 3; by
 * `between` 0 and 1 of stage 0, then 2 and 4 of stage 1 with 3 of stage 2 between them, then 5 of stage 3 and 6 of stage 1; by
 * `three` 0, 1 and 2 of stage 0, then one each of three stages. */
static void choices(void)
{
    static const uint8_t g[] = {3, 7, RULES_OF_G}, echo[] = {3, 4, 1, 0, 0, 1, 1, 0, 0, 2, 0, 1, 0, 2},
                         within[] = {4, 8, 2, 0, 0, 1, 0, 3, 2, 0, 0, 2, 0, 3, 1, 1, 0, 3, 1, 1,
                                     0, 1, 0, 1, 1, 2, 0, 3, 0, 3, 0, 2},
                         between[] = {4, 7, 1, 0, 0, 1, 1, 0, 0, 2, 1, 1, 0, 3, 1, 2, 0, 3, 1, 1, 0, 1, 0, 3, 0, 1},
                         three[] = {4, 6, 1, 0, 0, 1, 1, 0, 0, 2, 1, 0, 0, 3, 0, 1, 0, 2, 0, 3};
    static const uint8_t no_token[] = {0}, mark[] = {1, 0}, two_marks[] = {2, 0, 0}, step[] = {3, 1, 0, 2},
                         two_steps[] = {4, 1, 2, 1, 2};

    DUE_CHOICES("G, no token", g, no_token, 0);
    DUE_CHOICES("G, no reading", g, mark, 0);
    DUE_CHOICES("G, a step", g, step, 1);
    DUE_CHOICES("G, two steps", g, two_steps, 2);
    DUE_CHOICES("an echo", echo, mark, 1);
    DUE_CHOICES("a choice within a step", within, step, 2);
    DUE_CHOICES("another stage's rule between", between, two_marks, 2);
    DUE_CHOICES("three rules of one stage", three, mark, 1);
}

static void due_readings(const char *what, struct gaffmedlar_readings given, int answer, uint64_t count)
{
    due(what, given.answer, answer);
    if (given.count != count) {
        printf("%s: %" PRIu64 " readings, and %" PRIu64 " are due\n", what, given.count, count);
        faults++;
    }
}

/* Two files, with how many bytes they have. */
struct frame {
    const uint8_t *grammar;
    size_t grammar_len;
    const uint8_t *history;
    size_t history_len;
};

#define FRAME(grammar, history) {grammar, sizeof grammar, history, sizeof history}

static void due_total(const char *what, struct frame of, int answer, uint64_t count)
{
    due_readings(what, gaffmedlar_reading_count(of.grammar, of.grammar_len, of.history, of.history_len), answer, count);
}

static void due_at(const char *what, struct frame of, size_t position, size_t rule, int answer, uint64_t count)
{
    struct gaffmedlar_readings given =
        gaffmedlar_reading_count_at(of.grammar, of.grammar_len, of.history, of.history_len, position, rule);
    due_readings(what, given, answer, count);
}

/* What is due for a k and a buffer of room bytes: so many bytes of a reading, with number 0; or no byte, with the number. */
static void due_kth(const char *what, struct frame of, uint64_t k, size_t room, int number, const uint8_t *reading,
                    size_t reading_len)
{
    static uint8_t memory[BESIDE + GAFFMEDLAR_READING_MAX + BESIDE];
    memset(memory, FILLING, sizeof memory);
    due(what,
        gaffmedlar_reading_at(of.grammar, of.grammar_len, of.history, of.history_len, k, room > 0 ? memory + BESIDE : NULL,
                              room),
        number);
    for (size_t i = 0; i < sizeof memory; i++) {
        int due_byte = i >= BESIDE && i < BESIDE + reading_len ? reading[i - BESIDE] : FILLING;
        if (memory[i] != due_byte) {
            printf("%s, reading %" PRIu64 ": byte %td is %d, and %d is due\n", what, k, (ptrdiff_t)i - BESIDE, memory[i],
                   due_byte);
            faults++;
        }
    }
}

static void refused_kth(const char *what, struct frame of, uint64_t k, size_t room, int number)
{
    due_kth(what, of, k, room, number, NULL, 0);
}

/* Steps through all readings of two files that pass, and counts them and their rules. Reading k is the one that this comes to
 * with k; the counts are these, and at each position add up. */
static void due_as_stepwise(const char *what, struct frame of)
{
    static uint8_t reading[GAFFMEDLAR_READING_MAX];
    static uint64_t at[GAFFMEDLAR_READING_MAX][GAFFMEDLAR_RULES_MAX];
    size_t n = gaffmedlar_history_check(of.history, of.history_len).tokens;
    uint64_t k = 0;
    int answer = gaffmedlar_first_reading(of.grammar, of.grammar_len, of.history, of.history_len, reading, n + 1);

    memset(at, 0, sizeof at);
    while (answer == GAFFMEDLAR_OK) {
        k++;
        due_kth(what, of, k, n + 1, GAFFMEDLAR_OK, reading, n + 1);
        for (size_t p = 0; p <= n; p++)
            at[p][reading[p]]++;
        answer = gaffmedlar_next_reading(of.grammar, of.grammar_len, of.history, of.history_len, reading, n + 1);
    }
    due_total(what, of, GAFFMEDLAR_OK, k);
    refused_kth(what, of, k + 1, n + 1, GAFFMEDLAR_REFUSED_OUT_OF_RANGE);
    for (size_t p = 0; p <= n; p++) {
        uint64_t sum = 0;
        for (size_t rule = 0; rule < GAFFMEDLAR_RULES_MAX; rule++) {
            due_at(what, of, p, rule, GAFFMEDLAR_OK, at[p][rule]);
            sum += gaffmedlar_reading_count_at(of.grammar, of.grammar_len, of.history, of.history_len, p, rule).count;
        }
        due_total(what, of, GAFFMEDLAR_OK, sum);
    }
}

/* Fills a history with this row of tokens so many times; gives how many bytes it has. All numbers but the count are one byte. */
static size_t repeated(uint8_t *history, const uint8_t *tokens, size_t tokens_len, size_t times)
{
    size_t count = tokens_len * times, at = 0;
    if (count >= 128)
        history[at++] = (uint8_t)(count % 128 + 128);
    history[at++] = (uint8_t)(count >= 128 ? count / 128 : count);
    for (size_t i = 0; i < count; i++)
        history[at++] = tokens[i % tokens_len];
    return at;
}

static const uint8_t g_bytes[] = {3, 7, RULES_OF_G};
/* Has 2^n - 1 readings for n marks: by rule 0 up to some mark, rule 1 there, and from then on either of two rules. */
static const uint8_t top[] = {3, 8, 1, 0, 0, 0, 1, 0, 0, 1, 1, 1, 0, 1, 1, 1, 0, 2, 0, 1, 1, 2, 0, 1, 1, 2, 0, 2, 0, 2};

/* G's history of one step, and others of few readings. */
static void few_readings(void)
{
    static const uint8_t no_token[] = {0}, mark[] = {1, 0}, step[] = {3, 1, 0, 2}, two_steps[] = {4, 1, 2, 1, 2},
                         three_marks[] = {3, 0, 0, 0};
    static const uint8_t exchanged[] = {G_EXCHANGED}, three[] = {4, 6, 1, 0, 0, 1, 1, 0, 0, 2, 1, 0, 0, 3, 0, 1, 0, 2, 0, 3};
    static const uint8_t second[] = {2, 5, 6, 0}, third[] = {2, 6, 1, 4, 0};
    static const struct frame one = FRAME(g_bytes, step), two = FRAME(g_bytes, two_steps), unread = FRAME(g_bytes, mark);
    static const struct frame all[] = {FRAME(g_bytes, no_token),  FRAME(g_bytes, mark),
                                       FRAME(g_bytes, step),      FRAME(g_bytes, two_steps),
                                       FRAME(exchanged, two_steps), FRAME(three, mark),
                                       FRAME(top, three_marks)};
    static const size_t large[] = {4, (size_t)1 << 31, SIZE_MAX / 2 + 1, SIZE_MAX};

    for (size_t i = 0; i < sizeof all / sizeof all[0]; i++)
        due_as_stepwise("stepwise", all[i]);
    due_total("a step", one, GAFFMEDLAR_OK, 2);
    due_at("a step", one, 0, 1, GAFFMEDLAR_OK, 1);
    due_at("a step", one, 3, 0, GAFFMEDLAR_OK, 2);
    due_at("a rule behind the last", one, 0, 7, GAFFMEDLAR_OK, 0);
    due_at("a rule behind all", one, 0, 128, GAFFMEDLAR_OK, 0);
    due_at("a rule of any number", one, 0, SIZE_MAX, GAFFMEDLAR_OK, 0);
    for (size_t i = 0; i < sizeof large / sizeof large[0]; i++) {
        due_at("a position above n", one, large[i], 0, GAFFMEDLAR_REFUSED_OUT_OF_RANGE, 0);
        due_at("a position above n", one, large[i], 200, GAFFMEDLAR_REFUSED_OUT_OF_RANGE, 0);
    }
    due_kth("a step", one, 2, 4, GAFFMEDLAR_OK, second, 4);
    due_kth("a step, in more room", one, 2, 9, GAFFMEDLAR_OK, second, 4);
    due_kth("two steps", two, 3, 5, GAFFMEDLAR_OK, third, 5);
    refused_kth("k is 0", one, 0, 4, GAFFMEDLAR_REFUSED_OUT_OF_RANGE);
    refused_kth("k above the count", one, 3, 4, GAFFMEDLAR_REFUSED_OUT_OF_RANGE);
    refused_kth("k above the count", one, UINT64_MAX, 4, GAFFMEDLAR_REFUSED_OUT_OF_RANGE);
    for (size_t room = 0; room < 4; room++)
        for (uint64_t k = 0; k < 4; k++)
            refused_kth("15 before 18", one, k, room, GAFFMEDLAR_REFUSED_BUFFER_SHORT);
    due_total("no reading", unread, GAFFMEDLAR_OK, 0);
    refused_kth("no reading", unread, 1, 2, GAFFMEDLAR_REFUSED_OUT_OF_RANGE);
    refused_kth("no reading, 15 before 18", unread, 1, 1, GAFFMEDLAR_REFUSED_BUFFER_SHORT);
}

/* A file's refusal comes before 15 and 18, and the grammar's before the history's. */
static void no_readings(void)
{
    static const uint8_t still_open[] = {1, 1}, cut_off[] = {1};
    static const struct frame unclosed = FRAME(g_bytes, still_open), both = FRAME(cut_off, still_open);

    due_total("still open", unclosed, GAFFMEDLAR_REFUSED_STILL_OPEN, 0);
    due_at("still open", unclosed, SIZE_MAX, 0, GAFFMEDLAR_REFUSED_STILL_OPEN, 0);
    refused_kth("still open", unclosed, 0, 0, GAFFMEDLAR_REFUSED_STILL_OPEN);
    due_total("cut off", both, GAFFMEDLAR_REFUSED_BYTES_END, 0);
    due_at("cut off", both, SIZE_MAX, 0, GAFFMEDLAR_REFUSED_BYTES_END, 0);
    refused_kth("cut off", both, 0, 0, GAFFMEDLAR_REFUSED_BYTES_END);
}

/* G on 63 and on 64 empty steps: 2^63 readings, and one more than a count can say. */
static void many_steps(void)
{
    static const uint8_t step[] = {1, 2};
    static uint8_t history[GAFFMEDLAR_HISTORY_BYTES_MAX], reading[129];
    const uint64_t half = (uint64_t)1 << 63;
    struct frame of = {g_bytes, sizeof g_bytes, history, repeated(history, step, 2, 63)};

    due_total("63 steps", of, GAFFMEDLAR_OK, half);
    for (size_t p = 0; p < 126; p += 2) {
        due_at("63 steps", of, p, 1, GAFFMEDLAR_OK, half / 2);
        due_at("63 steps", of, p + 1, 6, GAFFMEDLAR_OK, half / 2);
    }
    due_at("63 steps", of, 126, 0, GAFFMEDLAR_OK, half);
    refused_kth("63 steps", of, half + 1, 127, GAFFMEDLAR_REFUSED_OUT_OF_RANGE);
    for (size_t p = 0; p < 126; p++)
        reading[p] = p % 2 == 0 ? 2 : 6;
    reading[126] = 0;
    due_kth("63 steps, the last", of, half, 127, GAFFMEDLAR_OK, reading, 127);

    of.history_len = repeated(history, step, 2, 64);
    due_total("64 steps", of, GAFFMEDLAR_OVER, 0);
    due_at("64 steps", of, 0, 1, GAFFMEDLAR_OK, half);
    due_at("64 steps", of, 127, 6, GAFFMEDLAR_OK, half);
    due_at("64 steps", of, 128, 0, GAFFMEDLAR_OVER, 0);
    due_at("64 steps", of, 128, 128, GAFFMEDLAR_OK, 0);
    due_at("64 steps", of, 129, 0, GAFFMEDLAR_REFUSED_OUT_OF_RANGE, 0);
    refused_kth("64 steps", of, 0, 129, GAFFMEDLAR_REFUSED_OUT_OF_RANGE);
    for (size_t p = 0; p < 128; p++)
        reading[p] = p % 2 == 0 ? 2 : 6;
    reading[128] = 0;
    reading[0] = 1;
    reading[1] = 4;
    due_kth("64 steps, half of them", of, half, 129, GAFFMEDLAR_OK, reading, 129);
    reading[0] = 2;
    reading[1] = 6;
    reading[126] = 1;
    reading[127] = 4;
    due_kth("64 steps, the largest k", of, UINT64_MAX, 129, GAFFMEDLAR_OK, reading, 129);
}

/* The largest count, 2^64 - 1, and twice as many and one; none times over; over times one. */
static void largest_count(void)
{
    static const uint8_t behind[] = {4, 9, 2, 0, 0, 1, 0, 2, 1, 1, 0, 1, 1, 1, 0, 3, 0, 1, 1,
                                     3, 0, 1, 1, 3, 0, 3, 0, 3, 1, 2, 1, 2, 0, 2},
                         mark[] = {0};
    static uint8_t history[GAFFMEDLAR_HISTORY_BYTES_MAX], reading[65];
    struct frame of = {top, sizeof top, history, repeated(history, mark, 1, 64)};

    due_total("64 marks", of, GAFFMEDLAR_OK, UINT64_MAX);
    memset(reading, 6, sizeof reading);
    reading[0] = 1;
    reading[1] = 3;
    reading[64] = 7;
    due_kth("64 marks, the last", of, UINT64_MAX, 65, GAFFMEDLAR_OK, reading, 65);
    refused_kth("64 marks", of, 0, 65, GAFFMEDLAR_REFUSED_OUT_OF_RANGE);
    of.history_len = repeated(history, mark, 1, 65);
    due_total("65 marks", of, GAFFMEDLAR_OVER, 0);
    due_at("65 marks", of, 0, 0, GAFFMEDLAR_OK, UINT64_MAX);
    due_at("65 marks", of, 0, 1, GAFFMEDLAR_OVER, 0);

    /* a step of 70 marks inside, and behind it nothing, a mark that no rule makes there, and one that a rule makes */
    static const int behind_due[] = {GAFFMEDLAR_OVER, GAFFMEDLAR_OK, GAFFMEDLAR_OVER};
    static const uint8_t marks_behind[] = {0, 0, 4};
    for (uint8_t i = 0; i < 3; i++) {
        memset(history, 0, 75);
        history[0] = 72 + (i > 0);
        history[1] = 1;
        history[72] = 2;
        history[73] = marks_behind[i];
        struct frame step = {behind, sizeof behind, history, (size_t)history[0] + 1};
        due_total("a step of 70 marks", step, behind_due[i], 0);
    }
}

/* What is due for a buffer of room words that all hold 7: the first of them written, and the count of choices, with number 0;
 * or no word, and the count 0, with the number. The choice count by itself is the same, but that it is not refused by 15. */
static void due_sets(const char *what, struct frame of, size_t room, int number, const uint32_t *words, size_t words_len,
                     uint32_t choices)
{
    static uint32_t memory[BESIDE + GAFFMEDLAR_WORDS_MAX + BESIDE];
    for (size_t i = 0; i < sizeof memory / sizeof memory[0]; i++)
        memory[i] = 7;
    struct gaffmedlar_count sets = gaffmedlar_sets(of.grammar, of.grammar_len, of.history, of.history_len,
                                                   room > 0 ? memory + BESIDE : NULL, room);
    struct gaffmedlar_count counted = gaffmedlar_choice_count(of.grammar, of.grammar_len, of.history, of.history_len);

    due(what, sets.answer, number);
    due_count(what, sets.count, choices);
    if (number != GAFFMEDLAR_REFUSED_BUFFER_SHORT) {
        due(what, counted.answer, number);
        due_count(what, counted.count, choices);
    }
    for (size_t i = 0; i < sizeof memory / sizeof memory[0]; i++) {
        uint32_t due_word = i >= BESIDE && i < BESIDE + words_len ? words[i - BESIDE] : 7;
        if (memory[i] != due_word) {
            printf("%s: word %td of the buffer is %u, and %u is due\n", what, (ptrdiff_t)i - BESIDE, (unsigned)memory[i],
                   (unsigned)due_word);
            faults++;
        }
    }
}

static void refused_sets(const char *what, struct frame of, size_t room, int number)
{
    due_sets(what, of, room, number, NULL, 0, 0);
}

/* Buffers of each length up to some words more than the sets have: 15 until there is room. */
static void due_sets_at_all_lengths(const char *what, struct frame of, const uint32_t *words, size_t words_len,
                                    uint32_t choices)
{
    for (size_t room = 0; room < words_len; room++)
        refused_sets(what, of, room, GAFFMEDLAR_REFUSED_BUFFER_SHORT);
    for (size_t room = words_len; room <= words_len + BESIDE; room++)
        due_sets(what, of, room, GAFFMEDLAR_OK, words, words_len, choices);
}

/* G's history of one step, of two, and one without a reading. */
static void sets_with_choices(void)
{
    static const uint8_t step[] = {3, 1, 0, 2}, two_steps[] = {4, 1, 2, 1, 2}, mark[] = {1, 0};
    static const uint32_t of_step[] = {6, 0, 0, 0, 40, 0, 0, 0, 80, 0, 0, 0, 1, 0, 0, 0},
                          of_two[] = {6, 0, 0, 0, 80, 0, 0, 0, 6, 0, 0, 0, 80, 0, 0, 0, 1, 0, 0, 0}, of_mark[8] = {0};
    static const struct frame one = FRAME(g_bytes, step), two = FRAME(g_bytes, two_steps), unread = FRAME(g_bytes, mark);

    due_sets_at_all_lengths("sets of a step", one, of_step, 16, 1);
    due_sets_at_all_lengths("sets of two steps", two, of_two, 20, 2);
    due_sets_at_all_lengths("sets without a reading", unread, of_mark, 8, 0);
    due_sets("sets in a large buffer", one, GAFFMEDLAR_WORDS_MAX, GAFFMEDLAR_OK, of_step, 16, 1);
}

/* 1,024 marks, each by either of two rules in either of two stages: as many choices, in the largest buffer that is needed. */
static void sets_of_many_choices(void)
{
    static const uint8_t grammar[] = {2, 6, 0, 0, 1, 0, 0, 0, 1, 0, 0, 1, 1, 1, 0, 0, 1, 1, 0, 1, 0, 1}, mark[] = {0};
    static uint8_t history[GAFFMEDLAR_HISTORY_BYTES_MAX];
    static uint32_t words[GAFFMEDLAR_WORDS_MAX];
    struct frame of = {grammar, sizeof grammar, history, repeated(history, mark, 1, 1024)};

    for (size_t p = 0; p <= 1024; p++)
        words[4 * p] = p == 0 ? 6 : p == 1024 ? 33 : 30;
    due_sets("1,024 choices", of, GAFFMEDLAR_WORDS_MAX, GAFFMEDLAR_OK, words, GAFFMEDLAR_WORDS_MAX, 1024);
    refused_sets("1,024 choices, a word too few", of, GAFFMEDLAR_WORDS_MAX - 1, GAFFMEDLAR_REFUSED_BUFFER_SHORT);
}

/* By each number that a file can be refused by no word is written, and the count is 0; a buffer without room changes nothing. */
static void sets_of_refused_files(void)
{
    static const uint8_t step[] = {3, 1, 0, 2}, follow[] = {3, 7, RULES_OF_G, 0}, opens[] = {1};
    static uint8_t too_deep[GAFFMEDLAR_HISTORY_BYTES_MAX];
    static const struct {
        uint8_t bytes[8];
        size_t length;
        int number;
    } grammars[] = {{{1}, 1, GAFFMEDLAR_REFUSED_BYTES_END},
                    {{128, 0}, 2, GAFFMEDLAR_REFUSED_NUMBER_FORM},
                    {{33}, 1, GAFFMEDLAR_REFUSED_STAGE_COUNT},
                    {{1, 0}, 2, GAFFMEDLAR_REFUSED_RULE_COUNT},
                    {{1, 1, 3}, 3, GAFFMEDLAR_REFUSED_FORM},
                    {{1, 1, 0, 1}, 4, GAFFMEDLAR_REFUSED_STAGE},
                    {{1, 1, 1, 0, 128, 128, 4, 0}, 8, GAFFMEDLAR_REFUSED_NAME},
                    {{1, 2, 0, 0, 0, 0}, 6, GAFFMEDLAR_REFUSED_RULE_TWICE}},
      histories[] = {{{1}, 1, GAFFMEDLAR_REFUSED_BYTES_END},
                     {{128, 0}, 2, GAFFMEDLAR_REFUSED_NUMBER_FORM},
                     {{1, 0, 0}, 3, GAFFMEDLAR_REFUSED_BYTES_FOLLOW},
                     {{129, 8}, 2, GAFFMEDLAR_REFUSED_TOKEN_COUNT},
                     {{1, 3}, 2, GAFFMEDLAR_REFUSED_TOKEN},
                     {{1, 2}, 2, GAFFMEDLAR_REFUSED_CLOSE_WITHOUT_OPEN},
                     {{1, 1}, 2, GAFFMEDLAR_REFUSED_STILL_OPEN}};
    struct frame behind = FRAME(follow, step), deep = {g_bytes, sizeof g_bytes, too_deep, repeated(too_deep, opens, 1, 129)};

    for (size_t room = 0; room <= 32; room += 16) {
        for (size_t i = 0; i < sizeof grammars / sizeof grammars[0]; i++) {
            /* the grammar comes first, whether the history passes or not */
            for (size_t h = 0; h < 2; h++) {
                struct frame of = {grammars[i].bytes, grammars[i].length, step, h == 0 ? sizeof step : 2};
                refused_sets("sets of a refused grammar", of, room, grammars[i].number);
            }
        }
        for (size_t i = 0; i < sizeof histories / sizeof histories[0]; i++) {
            struct frame of = {g_bytes, sizeof g_bytes, histories[i].bytes, histories[i].length};
            refused_sets("sets of a refused history", of, room, histories[i].number);
        }
        refused_sets("sets, bytes behind the grammar", behind, room, GAFFMEDLAR_REFUSED_BYTES_FOLLOW);
        refused_sets("sets, too deep", deep, room, GAFFMEDLAR_REFUSED_TOO_DEEP);
    }
}

/* NULL for what has length 0. */
static void without_pointers(void)
{
    static const uint8_t grammar[] = {1, 1, 0, 0}, history[] = {0};
    static const uint8_t calls[] = {0, 1};
    uint8_t answers[] = {9, 9}, reading[] = {9};

    due("no grammar", gaffmedlar_grammar_check(NULL, 0).answer, GAFFMEDLAR_REFUSED_BYTES_END);
    due("no history", gaffmedlar_history_check(NULL, 0).answer, GAFFMEDLAR_REFUSED_BYTES_END);
    due("count", gaffmedlar_choice_count(grammar, sizeof grammar, NULL, 0).answer, GAFFMEDLAR_REFUSED_BYTES_END);
    due("first reading", gaffmedlar_first_reading(grammar, sizeof grammar, history, sizeof history, NULL, 0),
        GAFFMEDLAR_REFUSED_BUFFER_SHORT);
    due("next reading", gaffmedlar_next_reading(grammar, sizeof grammar, history, sizeof history, NULL, 0),
        GAFFMEDLAR_REFUSED_BUFFER_SHORT);
    due("reading count", gaffmedlar_reading_count(NULL, 0, history, sizeof history).answer, GAFFMEDLAR_REFUSED_BYTES_END);
    due("reading count", gaffmedlar_reading_count(grammar, sizeof grammar, NULL, 0).answer, GAFFMEDLAR_REFUSED_BYTES_END);
    due("reading count at", gaffmedlar_reading_count_at(NULL, 0, NULL, 0, 0, 0).answer, GAFFMEDLAR_REFUSED_BYTES_END);
    due("reading at", gaffmedlar_reading_at(grammar, sizeof grammar, history, sizeof history, 1, NULL, 0),
        GAFFMEDLAR_REFUSED_BUFFER_SHORT);
    due("reading at", gaffmedlar_reading_at(NULL, 0, NULL, 0, 1, NULL, 0), GAFFMEDLAR_REFUSED_BYTES_END);
    due("sets", gaffmedlar_sets(grammar, sizeof grammar, history, sizeof history, NULL, 0).answer,
        GAFFMEDLAR_REFUSED_BUFFER_SHORT);
    due("sets", gaffmedlar_sets(NULL, 0, NULL, 0, NULL, 0).answer, GAFFMEDLAR_REFUSED_BYTES_END);
    due("stop marks", gaffmedlar_stop_marks(grammar, sizeof grammar, history, sizeof history, NULL, 0),
        GAFFMEDLAR_REFUSED_BUFFER_SHORT);
    due("no calls", gaffmedlar_run_calls(NULL, 0, NULL, 0, NULL, 0, NULL, 0, NULL, 0), GAFFMEDLAR_OK);
    due("no answers",
        gaffmedlar_run_calls(grammar, sizeof grammar, history, sizeof history, calls, sizeof calls, NULL, 0, reading,
                             sizeof reading),
        GAFFMEDLAR_REFUSED_BUFFER_SHORT);
    due("no answers and no grammar",
        gaffmedlar_run_calls(NULL, 0, history, sizeof history, calls, sizeof calls, NULL, 0, reading, sizeof reading),
        GAFFMEDLAR_REFUSED_BYTES_END);
    due("calls",
        gaffmedlar_run_calls(grammar, sizeof grammar, history, sizeof history, calls, sizeof calls, answers,
                             sizeof answers, reading, sizeof reading),
        GAFFMEDLAR_OK);
    due("first of the calls", answers[0], GAFFMEDLAR_OK);
    due("second of the calls", answers[1], GAFFMEDLAR_NO_FURTHER);
    due("the reading", reading[0], 0);
}

/* The version as a number, by its text and by the library. */
static void versions(void)
{
    unsigned first, second, third;
    if (sscanf(GAFFMEDLAR_VERSION, "%u.%u.%u", &first, &second, &third) != 3 ||
        10000 * first + 100 * second + third != GAFFMEDLAR_VERSION_NUMBER ||
        gaffmedlar_version() != GAFFMEDLAR_VERSION_NUMBER) {
        printf("version %s, its number %d, and the library's, %u, differ\n", GAFFMEDLAR_VERSION, GAFFMEDLAR_VERSION_NUMBER,
               (unsigned)gaffmedlar_version());
        faults++;
    }
}

int main(void)
{
    versions();
    without_pointers();
    steps();
    written_with_the_start();
    written_as_they_are();
    longest_grammars();
    written_histories();
    starts();
    refused_numbers();
    wide_limits();
    wide_names();
    choices();
    few_readings();
    no_readings();
    many_steps();
    largest_count();
    sets_with_choices();
    sets_of_many_choices();
    sets_of_refused_files();

    int said = 0;
    for (int answer = 0; answer < 256; answer++)
        said += strcmp(gaffmedlar_words((uint8_t)answer), gaffmedlar_words(255)) != 0;
    if (said != 22) {
        printf("%d answers have words, and 22 are due\n", said);
        faults++;
    }
    return faults != 0;
}
