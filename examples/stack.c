/* Measures how much stack each function uses: it is called on a stack of its own that was painted before, on files at
 * every limit, and the deepest byte that changed is looked for. Fails where less than 1 KiB is left of what gaffmedlar.h
 * states, which is read from the file itself. Each function is also called in a thread with the stack that gaffmedlar.h says is
 * enough. A function has a process of its own, so that its first call, at which a shared library is bound, is measured too.
 *
 * Build and run, in the repository's root:
 *     tools/build library
 *     cc -O2 -pthread -Iinclude -o target/stack_c examples/stack.c target/staticlib/libgaffmedlar.a
 *     target/stack_c include/gaffmedlar.h
 */
#define _XOPEN_SOURCE 700
#include "gaffmedlar.h"

#include <pthread.h>
#include <stdio.h>
#include <stdlib.h>
#include <string.h>
#include <sys/wait.h>
#include <ucontext.h>
#include <unistd.h>

#define STACK (4u << 20)
#define PAINT 0xa7
#define LEFT 1024 /* bytes of what is stated that are never used */
#define FAILED ((size_t)-1)

static uint8_t *stack;
static ucontext_t here, there;

static uint8_t grammar[GAFFMEDLAR_GRAMMAR_BYTES_MAX], history[GAFFMEDLAR_HISTORY_BYTES_MAX];
static size_t grammar_len, history_len;
static uint8_t reading[GAFFMEDLAR_READING_MAX], marks[GAFFMEDLAR_READING_MAX];
static uint32_t words[GAFFMEDLAR_WORDS_MAX];
static const uint8_t calls[3] = {0, 1, 1};
static uint8_t answers[3];
static uint32_t grammar_numbers[GAFFMEDLAR_GRAMMAR_NUMBERS_MAX], history_numbers[GAFFMEDLAR_HISTORY_NUMBERS_MAX];
static size_t grammar_numbers_len, history_numbers_len;
static uint8_t file[GAFFMEDLAR_HISTORY_BYTES_MAX];

static void nothing(void) {}
static void version(void) { gaffmedlar_version(); }
static void grammar_check(void) { gaffmedlar_grammar_check(grammar, grammar_len); }
static void history_check(void) { gaffmedlar_history_check(history, history_len); }
static void first(void)
{
    gaffmedlar_first_reading(grammar, grammar_len, history, history_len, reading, sizeof reading);
}
static void next(void)
{
    gaffmedlar_next_reading(grammar, grammar_len, history, history_len, reading, sizeof reading);
}
static void run_calls(void)
{
    gaffmedlar_run_calls(grammar, grammar_len, history, history_len, calls, sizeof calls, answers, sizeof answers,
                         reading, sizeof reading);
}
static void sets(void)
{
    gaffmedlar_sets(grammar, grammar_len, history, history_len, words, GAFFMEDLAR_WORDS_MAX);
}
static void choices(void) { gaffmedlar_choice_count(grammar, grammar_len, history, history_len); }
static void reading_count(void) { gaffmedlar_reading_count(grammar, grammar_len, history, history_len); }
static void reading_count_at(void)
{
    gaffmedlar_reading_count_at(grammar, grammar_len, history, history_len, 1023, 1);
}
/* The first reading, and one that is served where there are more than a count can say. */
static void reading_at(void)
{
    gaffmedlar_reading_at(grammar, grammar_len, history, history_len, 1, reading, sizeof reading);
    gaffmedlar_reading_at(grammar, grammar_len, history, history_len, UINT64_MAX, reading, sizeof reading);
}
static void stop_marks(void)
{
    gaffmedlar_stop_marks(grammar, grammar_len, history, history_len, marks, sizeof marks);
}

static void step_bytes(void) { gaffmedlar_step_bytes(history, history_len, 0); }
static void step_refusal(void) { gaffmedlar_step_refusal(history, history_len, 1022); }

static void write_grammar(void)
{
    gaffmedlar_write_grammar(grammar_numbers, grammar_numbers_len, file, sizeof file);
}
static void write_history(void)
{
    gaffmedlar_write_history(history_numbers, history_numbers_len, file, sizeof file);
}

static size_t used(void (*function)(void))
{
    memset(stack, PAINT, STACK);
    getcontext(&there);
    there.uc_stack.ss_sp = stack;
    there.uc_stack.ss_size = STACK;
    there.uc_link = &here;
    makecontext(&there, function, 0);
    swapcontext(&here, &there);
    size_t untouched = 0;
    while (untouched < STACK && stack[untouched] == PAINT)
        untouched++;
    return STACK - untouched;
}

static void *call(void *function)
{
    (*(void (**)(void))function)();
    return NULL;
}

/* Whether the function runs through in a thread with so many KiB; one that needs more than it has ends the whole program. */
static int in_thread(void (*function)(void), size_t kib)
{
    pthread_attr_t attributes;
    pthread_t thread;
    return pthread_attr_init(&attributes) == 0 && pthread_attr_setstacksize(&attributes, kib << 10) == 0 &&
           pthread_create(&thread, &attributes, call, &function) == 0 && pthread_join(thread, NULL) == 0;
}

/* Puts a number at the end of a file. */
static size_t put(uint8_t *bytes, size_t at, uint32_t number)
{
    while (number >= 128) {
        bytes[at++] = number % 128 + 128;
        number /= 128;
    }
    bytes[at++] = number;
    return at;
}

static size_t put_all(uint8_t *bytes, size_t at, const uint32_t *numbers, size_t count)
{
    for (size_t i = 0; i < count; i++)
        at = put(bytes, at, numbers[i]);
    return at;
}

/* 32 stages and 128 rules: each stage ends, goes on by a mark to two stages, and makes a step, all of one name. The last one
 * starts where the file says its start. */
static void full_grammar(int says_start, uint32_t name)
{
    static const uint32_t heads[][4] = {{32, 128}, {0, 32, 31, 128}};
    size_t count = says_start ? 4 : 2;
    memcpy(grammar_numbers, heads[says_start], count * sizeof heads[0][0]);
    for (uint32_t stage = 0; stage < 32; stage++) {
        const uint32_t later = (stage + 1) % 32, other = (stage + 7) % 32;
        const uint32_t rules[] = {0, stage, 1, stage, name, later, 1, stage, name, other, 2, stage, name, later, name, other};
        memcpy(grammar_numbers + count, rules, sizeof rules);
        count += sizeof rules / sizeof rules[0];
    }
    grammar_numbers_len = count;
    grammar_len = put_all(grammar, 0, grammar_numbers, count);
}

/* 1,024 tokens of one name by a pattern: marks, steps in a row, or 128 deep steps one behind the other. */
static void full_history(int pattern, uint32_t name)
{
    history_numbers[0] = 1024;
    for (int token = 0; token < 1024; token++) {
        int opens = pattern == 1 ? token % 2 == 0 : token % 256 < 128;
        uint32_t kind = pattern == 0 ? 0 : opens ? 1 : 2;
        history_numbers[1 + token] = 4 * name + kind;
    }
    history_numbers_len = GAFFMEDLAR_HISTORY_NUMBERS_MAX;
    history_len = put_all(history, 0, history_numbers, history_numbers_len);
}

/* The first reading of these files, made in another process, since the first call of a function is to be measured. */
static void read_first(void)
{
    int ends[2];
    if (pipe(ends) != 0)
        exit(2);
    pid_t child = fork();
    if (child == 0) {
        first();
        _exit(write(ends[1], reading, sizeof reading) != (ssize_t)sizeof reading);
    }
    size_t got = 0;
    while (child > 0 && got < sizeof reading) {
        ssize_t more = read(ends[0], reading + got, sizeof reading - got);
        if (more <= 0)
            exit(2);
        got += more;
    }
    close(ends[0]);
    close(ends[1]);
    waitpid(child, NULL, 0);
}

/* The most that the function uses on the files of both beginnings, all patterns, and names of one byte and of three; FAILED
 * where a thread could not be made. */
static size_t most_used(void (*function)(void), size_t thread)
{
    static const uint32_t names[] = {0, 65535};
    size_t most = 0;
    for (int files = 0; files < 12; files++) {
        full_grammar(files % 2, names[files / 6]);
        full_history(files / 2 % 3, names[files / 6]);
        read_first();
        size_t bytes = used(function);
        if (bytes > most)
            most = bytes;
        if (!in_thread(function, thread))
            return FAILED;
    }
    return most - used(nothing);
}

/* The same in a process of its own; FAILED, and a message, where that came to no end. */
static size_t measured(const char *name, void (*function)(void), size_t thread)
{
    int ends[2], status = 0;
    size_t most = FAILED;
    if (pipe(ends) != 0)
        exit(2);
    fflush(NULL);
    pid_t child = fork();
    if (child == 0) {
        most = most_used(function, thread);
        _exit(write(ends[1], &most, sizeof most) != (ssize_t)sizeof most);
    }
    close(ends[1]);
    if (child < 0 || read(ends[0], &most, sizeof most) != (ssize_t)sizeof most)
        most = FAILED;
    close(ends[0]);
    waitpid(child, &status, 0);
    if (most == FAILED)
        fprintf(stderr, "stack: WRONG: gaffmedlar_%s did not end well in a thread of %zu KiB, which gaffmedlar.h says is enough (status %d)\n", name,
                thread, status);
    return most;
}

/* ---- what gaffmedlar.h states */
static char header[1 << 17];

/* The number before a text, which stands somewhere in the header. */
static size_t number_before(const char *text)
{
    const char *at = strstr(header, text);
    if (at == NULL) {
        fprintf(stderr, "stack: WRONG: gaffmedlar.h does not say '.. %s'\n", text);
        exit(1);
    }
    while (at > header && (at[-1] == ' ' || (at[-1] >= '0' && at[-1] <= '9')))
        at--;
    return strtoul(at, NULL, 10);
}

/* The KiB that stand in the comment before the declaration of a function. */
static size_t stated(const char *name)
{
    char declared[64];
    snprintf(declared, sizeof declared, "gaffmedlar_%s(", name);
    const char *declaration = strstr(header, declared), *figure = NULL;
    for (const char *at = header; declaration != NULL && (at = strstr(at, "Stack: ")) != NULL && at < declaration; at++)
        figure = at + strlen("Stack: ");
    if (figure == NULL) {
        fprintf(stderr, "stack: WRONG: gaffmedlar.h states no stack for gaffmedlar_%s\n", name);
        exit(1);
    }
    return strtoul(figure, NULL, 10);
}

/* How many functions the header states a stack for. */
static size_t all_stated(void)
{
    size_t found = 0;
    for (const char *at = header; (at = strstr(at, "Stack: ")) != NULL; at++)
        found++;
    return found;
}

static void read_header(const char *path)
{
    FILE *file = fopen(path, "r");
    if (file == NULL || fread(header, 1, sizeof header - 1, file) == 0 || !feof(file)) {
        perror(path);
        exit(2);
    }
    fclose(file);
}

/* Every function of the header. */
static const struct {
    const char *name;
    void (*function)(void);
    int counts; /* whether it is one of those that need the larger thread */
} all[] = {{"version", version, 0},
           {"grammar_check", grammar_check, 0},
           {"history_check", history_check, 0},
           {"first_reading", first, 0},
           {"next_reading", next, 0},
           {"run_calls", run_calls, 0},
           {"sets", sets, 0},
           {"choice_count", choices, 0},
           {"reading_count", reading_count, 1},
           {"reading_count_at", reading_count_at, 1},
           {"reading_at", reading_at, 1},
           {"stop_marks", stop_marks, 0},
           {"step_bytes", step_bytes, 0},
           {"step_refusal", step_refusal, 0},
           {"write_grammar", write_grammar, 0},
           {"write_history", write_history, 0}};

int main(int count, char **words)
{
    int faults = 0;
    stack = malloc(STACK);
    if (count != 2 || stack == NULL) {
        fprintf(stderr, "usage: stack include/gaffmedlar.h\n");
        return 2;
    }
    read_header(words[1]);
    if (all_stated() != sizeof all / sizeof all[0]) {
        fprintf(stderr, "stack: WRONG: gaffmedlar.h states the stack of %zu functions, and %zu are measured\n", all_stated(),
                sizeof all / sizeof all[0]);
        return 1;
    }
    const size_t threads[] = {number_before(" KiB are enough for a thread that calls any"),
                              number_before(" KiB are enough for a thread that calls them")};
    for (size_t i = 0; i < sizeof all / sizeof all[0]; i++) {
        size_t kib = stated(all[i].name), thread = threads[all[i].counts];
        size_t most = measured(all[i].name, all[i].function, thread);
        if (most == FAILED) {
            faults = 1;
            continue;
        }
        printf("gaffmedlar_%-16s %6zu bytes of stack, stated %3zu KiB; in a thread of %zu KiB\n", all[i].name, most, kib, thread);
        if (most + LEFT > kib << 10) {
            fprintf(stderr, "stack: WRONG: gaffmedlar_%s uses %zu bytes of stack, and less than 1 KiB is left of the %zu KiB that gaffmedlar.h states\n",
                    all[i].name, most, kib);
            faults = 1;
        }
    }
    free(stack);
    return faults;
}
