/* Gaffmedlar: reads edit histories by a visibly pushdown grammar.
 *
 * Link libgaffmedlar.a or libgaffmedlar.so (x86-64 Linux): in the repository `tools/build library` makes both, in
 * target/staticlib and target/shared; installed, `pkg-config --cflags --libs gaffmedlar` names them. Of C's library they need
 * memcpy and memset, nothing else. Each function is proved to give what its definition gives, for files and buffers of any
 * length and content; what this header does by itself is not. docs/LINKING.md says how to link and to call, docs/GRAMMARS.md
 * what the two files hold, docs/SPECIFICATION.md all the rest.
 *
 * Answers
 *
 *     0         all went well: accepted, written, counted, made
 *     100       "none": the history has no reading
 *     101       "no further": the reading in the buffer is the last one
 *     102       "over": there are more readings than a count can say, that is, more than 2^64 - 1
 *     1 to 18   the number of the refusal, of which the constants below say what is wrong
 *
 * The number of the first fault is given, the grammar's before the history's, both before 15, and 15 before 16 or 18; the
 * history's before 17. gaffmedlar_step_bytes gives no number: gaffmedlar_step_refusal gives it. A writer gives the number
 * that a check would give the file, before 15.
 *
 * Grammars
 *
 * A grammar file begins in one of two ways. Behind either stand the rules.
 *
 *     stage count, rule count                    stage 0 is the start
 *     0, stage count, start stage, rule count    the start is the stage that the file says
 *
 * Every function reads both and goes by the start. gaffmedlar_write_grammar takes the numbers of both and always writes the
 * longer form.
 *
 * Names
 *
 * The names of marks, opens and closes are numbers from 0 to 65,535. A history file has a token as 4 x name + kind, which is
 * below 262,144. In both files a number takes one byte, two or three, as few as it can.
 *
 * Readings
 *
 * n is the number of tokens of the history. It has positions 0 to n: those of its tokens, and n behind the last one. A
 * reading is n + 1 bytes, a rule number for each position. Rules are numbered from 0 in the order of the grammar file.
 *
 *     at a mark       the form 1 rule that makes it
 *     at an open      the form 2 rule that makes it and its close
 *     at a close      the form 0 rule that ends the inside of its step
 *     at position n   the form 0 rule that ends the top level
 *
 * A reading derives the whole history from the start stage. Readings are ordered by the first position where they differ,
 * smaller rule number first. Reading k is the k-th in this order, counted from 1.
 *
 * Pointers
 *
 * - A file, a list or a buffer is a pointer and a number of ELEMENTS: bytes, or 32-bit words for the buffer of
 *   gaffmedlar_sets and the numbers that are written as a file. The pointer is good for that many elements and aligned
 *   for its type. It may be NULL where the number is 0 (that is so of the functions of this header; the symbols of the
 *   archive itself take no null pointer).
 * - Nothing is asked of the content of files, lists and buffers.
 * - A buffer is memory of the caller's that the call may write; document 01 calls it lent. The comment of each function
 *   says which elements it writes. All others keep their content, and a call that answers a refusal, 100 or 101 writes
 *   nothing at all.
 * - The files, the list of calls and the numbers are read only, and nothing may change them while the call runs. They
 *   may overlap each other.
 * - A buffer must not overlap anything else of the same call, neither a file nor a list nor another buffer (so the
 *   answers to a list of calls can't be written over it, nor a file over its numbers), and nothing of a call that runs
 *   at the same time in another thread.
 *
 * Otherwise calls from several threads don't disturb each other. No function allocates memory, keeps a pointer, has a
 * state of its own, makes a system call or runs for ever.
 *
 * Stack
 *
 * "Stack" below is what a call uses at most: measured on files at every limit, with at least 1 KiB left, and rounded up to
 * 4 KiB. It holds what C's memcpy and memset use on top of the function, and what the dynamic linker does when they are called
 * for the first time, as glibc does on x86-64 with its widest registers. With another C library or linker some KiB can come on
 * top: leave them room where a stack is cut to size. A thread needs some for its own start beside that:
 * 64 KiB are enough for a thread that calls any of the functions but three. gaffmedlar_reading_count,
 * gaffmedlar_reading_count_at and gaffmedlar_reading_at take more, since they hold a count of 64 bits for each stage at each
 * position: 320 KiB are enough for a thread that calls them. Where stacks are smaller, call them in a thread that has so much,
 * or step through the readings with gaffmedlar_next_reading. examples/stack.c reads these numbers here and measures all of it;
 * the gate fails where less than 1 KiB is left of one.
 *
 * Structs
 *
 * A struct comes back by value. Between its fields there are bytes that belong to none of them (three behind an answer that
 * stands before 32 bits, seven before 64), and their content is not promised: compare fields, not the bytes of two structs.
 */
#ifndef GAFFMEDLAR_H
#define GAFFMEDLAR_H

#include <stddef.h>
#include <stdint.h>

#ifdef __cplusplus
extern "C" {
#endif

/* The version that this header belongs to, as text and as a number: 10,000 times its first part, 100 times the second, and
 * the third. gaffmedlar_version gives the number of the library that is linked or loaded. */
#define GAFFMEDLAR_VERSION "0.3.0"
#define GAFFMEDLAR_VERSION_NUMBER 300

#define GAFFMEDLAR_OK 0
#define GAFFMEDLAR_NO_READING 100
#define GAFFMEDLAR_NO_FURTHER 101
#define GAFFMEDLAR_OVER 102

/* The numbers of the refusals. Before the words stands whose fault it is: that of the grammar file, of the history file,
 * of one of them (both), or of the call. */
#define GAFFMEDLAR_REFUSED_BYTES_END 1           /* both: the bytes end inside a number or before one that is due */
#define GAFFMEDLAR_REFUSED_NUMBER_FORM 2         /* both: a last byte of 0 after another byte, or a third byte with its top bit set */
#define GAFFMEDLAR_REFUSED_STAGE_COUNT 3         /* grammar: stage count not 1 to 32 */
#define GAFFMEDLAR_REFUSED_RULE_COUNT 4          /* grammar: rule count not 1 to 128 */
#define GAFFMEDLAR_REFUSED_FORM 5                /* grammar: form above 2 */
#define GAFFMEDLAR_REFUSED_STAGE 6               /* grammar: a stage number not below the stage count */
#define GAFFMEDLAR_REFUSED_NAME 7                /* grammar: a name above 65,535 */
#define GAFFMEDLAR_REFUSED_RULE_TWICE 8          /* grammar: a rule equal in form and all fields to an earlier rule */
#define GAFFMEDLAR_REFUSED_BYTES_FOLLOW 9        /* both: bytes follow the last rule or token */
#define GAFFMEDLAR_REFUSED_TOKEN_COUNT 10        /* history: token count above 1,024 */
#define GAFFMEDLAR_REFUSED_TOKEN 11              /* history: a token number with a name above 65,535, or one that leaves 3 when divided by 4 */
#define GAFFMEDLAR_REFUSED_CLOSE_WITHOUT_OPEN 12 /* history: a close with no step open */
#define GAFFMEDLAR_REFUSED_STILL_OPEN 13         /* history: a step still open after the last token */
#define GAFFMEDLAR_REFUSED_TOO_DEEP 14           /* history: an open while 128 steps are open */
#define GAFFMEDLAR_REFUSED_BUFFER_SHORT 15       /* call: a lent buffer shorter than its service writes or reads */
#define GAFFMEDLAR_REFUSED_NOT_A_READING 16      /* call: the first n + 1 bytes handed to "next reading" are no reading of this history */
#define GAFFMEDLAR_REFUSED_NOT_AN_OPEN 17        /* call: the position is not that of an open */
#define GAFFMEDLAR_REFUSED_OUT_OF_RANGE 18       /* call: k is 0 or above the count of readings, or the position is above n */

/* The most that files which pass can have: use these for buffers of a fixed size. */
#define GAFFMEDLAR_STAGES_MAX 32
#define GAFFMEDLAR_RULES_MAX 128
#define GAFFMEDLAR_TOKENS_MAX 1024
#define GAFFMEDLAR_OPEN_STEPS_MAX 128       /* steps that are open at once */
#define GAFFMEDLAR_NAME_MAX 65535           /* the largest name of a mark, an open or a close */
#define GAFFMEDLAR_READING_MAX 1025         /* bytes of a reading, and of the stop marks */
#define GAFFMEDLAR_WORDS_MAX 4100           /* words of the sets */
#define GAFFMEDLAR_GRAMMAR_BYTES_MAX 1285   /* bytes of a grammar file */
#define GAFFMEDLAR_HISTORY_BYTES_MAX 3074   /* bytes of a history file */
#define GAFFMEDLAR_GRAMMAR_NUMBERS_MAX 772  /* numbers of a grammar file */
#define GAFFMEDLAR_HISTORY_NUMBERS_MAX 1025 /* numbers of a history file */

struct gaffmedlar_grammar {
    uint8_t answer;  /* 0, or the number of the refusal */
    uint16_t stages; /* 0 where refused */
    uint16_t rules;  /* 0 where refused */
};

struct gaffmedlar_history {
    uint8_t answer;  /* 0, or the number of the refusal */
    uint16_t tokens; /* n; 0 where refused */
};

/* The count of choices: what gaffmedlar_sets and gaffmedlar_choice_count answer. */
struct gaffmedlar_count {
    uint8_t answer; /* 0, or the number of the refusal */
    uint32_t count; /* 0 where refused */
};

/* A count of readings. It is exact where answer is 0; look at answer first, since count is 0 with every other one. */
struct gaffmedlar_readings {
    uint8_t answer; /* 0, 102 (over: more than 2^64 - 1), or the number of the refusal */
    uint64_t count; /* 0 where over or refused */
};

/* A part of a file: `length` bytes from file[start] on. */
struct gaffmedlar_part {
    size_t start;  /* 0 where refused */
    size_t length; /* 0 where refused */
};

struct gaffmedlar_written {
    uint8_t answer; /* 0, or the number of the refusal */
    size_t length;  /* bytes of the file; 0 where refused */
};

/* The version of the library: GAFFMEDLAR_VERSION_NUMBER of the header that belongs to it. A program that loads a shared library
 * compares the two before its first call. Libraries before 0.3.0 don't have this function. Stack: 8 KiB. */
uint32_t gaffmedlar_version(void);

/* Checks a grammar file. Answers 0 with the counts, or 1 to 9. Writes nothing. Stack: 8 KiB. */
struct gaffmedlar_grammar gaffmedlar_grammar_check(const uint8_t *grammar, size_t grammar_len);

/* Checks a history file. Answers 0 with the number of tokens, or 1, 2, 9 to 14. Writes nothing. Stack: 8 KiB. */
struct gaffmedlar_history gaffmedlar_history_check(const uint8_t *history, size_t history_len);

/* Gives the first reading.
 * Answers 0 (written), 100 (none), 1 to 14, or 15 (reading_len below n + 1, also where there is no reading).
 * Writes reading[0] to reading[n], with answer 0 alone. Stack: 28 KiB. */
uint8_t gaffmedlar_first_reading(const uint8_t *grammar, size_t grammar_len, const uint8_t *history,
                                 size_t history_len, uint8_t *reading, size_t reading_len);

/* Overwrites the reading in the first n + 1 bytes of the buffer by the one that comes next in the order.
 * Answers 0 (written), 101 (it is the last one), 1 to 14, 15 (reading_len below n + 1), or 16 (the first n + 1 bytes are
 * no reading). Bytes behind these are not looked at.
 * Writes reading[0] to reading[n], with answer 0 alone. Stack: 32 KiB. */
uint8_t gaffmedlar_next_reading(const uint8_t *grammar, size_t grammar_len, const uint8_t *history,
                                size_t history_len, uint8_t *reading, size_t reading_len);

/* Makes a list of the two calls above on one buffer, each on the buffer as the one before left it: calls[i] is 0 for
 * first reading, any other number for next reading.
 * Answers 0 where answers_len is at least calls_len: answers[i] is then what call i by itself answers, so a file that is
 * refused, or a buffer_len below n + 1, is told there, once for each call. Where answers_len is below calls_len no call
 * is made: it answers 1 to 14 where a file is refused, else 15.
 * Writes answers[0] to answers[calls_len - 1], with answer 0 alone, and buffer[0] to buffer[n] where a call of the list
 * writes a reading. Stack: 40 KiB. */
uint8_t gaffmedlar_run_calls(const uint8_t *grammar, size_t grammar_len, const uint8_t *history,
                             size_t history_len, const uint8_t *calls, size_t calls_len, uint8_t *answers,
                             size_t answers_len, uint8_t *buffer, size_t buffer_len);

/* Gives the set of each position, and counts the choices in the same pass. Bit b of word 4 p + k is 1 where rule 32 k + b
 * stands at position p in some reading, else 0. The count is that of gaffmedlar_choice_count, which says what a choice is.
 * With no reading all these words are 0, and so is the count.
 * Answers 0 (written) with the count; or, with count 0, 1 to 14 or 15 (words_len, a number of WORDS, below 4 (n + 1)).
 * Writes words[0] to words[4 n + 3], with answer 0 alone. Stack: 28 KiB.
 * Before 0.2.0 it answered a number alone, and the count that headers had then, gaffmedlar_doubtful_count, is gone: choices are
 * counted in its place. A program that was written for such a header has to be changed and compiled again. (On x86-64 the struct
 * comes back in one register with the number in its lowest byte, so that an older program reads the number and never sees the
 * count. Nothing promises that.) */
struct gaffmedlar_count gaffmedlar_sets(const uint8_t *grammar, size_t grammar_len, const uint8_t *history,
                                        size_t history_len, uint32_t *words, size_t words_len);

/* Counts the choices. A position is a choice when its set holds two rules of one and the same stage (the L of both): a
 * reading that has come to this stage there can go on by either. Where readings have different rules at a position only
 * because each has come to a stage of its own, that is no choice: they differed before. The history has more than one
 * reading exactly when the count isn't 0. Whoever wants the sets gets the same count with them, from gaffmedlar_sets.
 * Answers 0 with the count (0 where there is no reading), or 1 to 14. Writes nothing. Stack: 28 KiB. */
struct gaffmedlar_count gaffmedlar_choice_count(const uint8_t *grammar, size_t grammar_len, const uint8_t *history,
                                                size_t history_len);

/* Counts the readings. Neither this function nor the two behind it step through readings: the work is about the tokens times
 * the rules, however many readings there are and whatever k is.
 * Answers 0 with the count (0 where there is no reading; 2^64 - 1 is a count like any other), 102 (more than that), or
 * 1 to 14. Writes nothing. Stack: 288 KiB. */
struct gaffmedlar_readings gaffmedlar_reading_count(const uint8_t *grammar, size_t grammar_len, const uint8_t *history,
                                                    size_t history_len);

/* Counts the readings that have the rule at the position. Both may be any number: a rule that the grammar doesn't have
 * stands nowhere, so its count is 0. The count is told by itself: it may be exact where there are more than 2^64 - 1
 * readings in all. Where there are not, the counts of all rules at a position add up to that of gaffmedlar_reading_count.
 * Answers 0 with the count, 102 (more than 2^64 - 1), 1 to 14, or 18 (the position is above n, whatever the rule).
 * Writes nothing. Stack: 288 KiB. */
struct gaffmedlar_readings gaffmedlar_reading_count_at(const uint8_t *grammar, size_t grammar_len,
                                                       const uint8_t *history, size_t history_len, size_t position,
                                                       size_t rule);

/* Gives reading k, counted from 1: what the buffer holds after one call of gaffmedlar_first_reading and k - 1 of
 * gaffmedlar_next_reading, which go on from it too.
 * Answers 0 (written), 1 to 14, 15 (reading_len below n + 1, also where there is no reading), or 18 (k is 0 or above the
 * count, which is every k where there is no reading). Where gaffmedlar_reading_count answers 102, no k but 0 is refused.
 * Writes reading[0] to reading[n], with answer 0 alone. Stack: 308 KiB. */
uint8_t gaffmedlar_reading_at(const uint8_t *grammar, size_t grammar_len, const uint8_t *history, size_t history_len,
                              uint64_t k, uint8_t *reading, size_t reading_len);

/* Gives the stop marks: marks[i] is 1 where the first i tokens alone have a reading, else 0.
 * Answers 0 (written), 1 to 14, or 15 (marks_len below n + 1).
 * Writes marks[0] to marks[n], with answer 0 alone. Stack: 28 KiB. */
uint8_t gaffmedlar_stop_marks(const uint8_t *grammar, size_t grammar_len, const uint8_t *history, size_t history_len,
                              uint8_t *marks, size_t marks_len);

/* Gives the bytes of one step: history[start] to history[start + length - 1] are those from the first byte of the open at
 * the position through the last byte of its close. They hold the tokens of the step and nothing else. The position is
 * counted in tokens, from 0, and may be any number.
 * A step has 2 bytes at least, so length 0 says that it is refused; start is then 0 too, and gaffmedlar_step_refusal says
 * why. Writes nothing. Stack: 12 KiB. */
struct gaffmedlar_part gaffmedlar_step_bytes(const uint8_t *history, size_t history_len, size_t position);

/* Says why gaffmedlar_step_bytes gives an empty part. Answers 0 where it gives a step, else 1, 2, 9 to 14, or 17 (the
 * history passes, and no open stands at the position). Writes nothing. Stack: 12 KiB. */
uint8_t gaffmedlar_step_refusal(const uint8_t *history, size_t history_len, size_t position);

/* Writes a grammar file from its numbers in their order, one element each, with either beginning: the stage count, the rule
 * count, and the numbers of each rule; or a 0, the stage count, the start stage, the rule count, and the numbers of each
 * rule. The file has the second beginning always: numbers with the first are written with a 0 before the stage count and
 * the start 0 behind it, which reads as before and is two bytes longer. The numbers of a file that has the second are
 * written as that file, byte for byte.
 * Answers 0 with the length of the file. Otherwise it answers what gaffmedlar_grammar_check would, in the same order: 1 (too
 * few elements), 3 to 8, or 9 (elements follow the last rule), never 2; and where nothing is wrong with the numbers, 15
 * (file_len below the length of the file as it is written, with its start). An element may be any number: one that is too
 * large for every file gets the number of its place, 70,000 as a name 7, 4,294,967,295 as the stage count 3.
 * Writes file[0] to file[length - 1], with answer 0 alone. Stack: 12 KiB. */
struct gaffmedlar_written gaffmedlar_write_grammar(const uint32_t *numbers, size_t numbers_len, uint8_t *file,
                                                   size_t file_len);

/* Writes a history file from its numbers in their order, one element each: the token count, and the number of each token.
 * Answers 0 with the length of the file. Otherwise it answers what gaffmedlar_history_check would, in the same order: 1 (too
 * few elements), 9 (elements follow the last token) or 10 to 14, never 2; and where nothing is wrong with the numbers, 15
 * (file_len below the length of the file). An element may be any number: one that is too large for every file gets 10 as
 * the token count, 11 as a token.
 * Writes file[0] to file[length - 1], with answer 0 alone. Stack: 12 KiB. */
struct gaffmedlar_written gaffmedlar_write_history(const uint32_t *numbers, size_t numbers_len, uint8_t *file,
                                                   size_t file_len);

/* What a number says in words, for messages. */
static inline const char *gaffmedlar_words(uint8_t answer)
{
    switch (answer) {
    case GAFFMEDLAR_OK:
        return "all went well";
    case GAFFMEDLAR_REFUSED_BYTES_END:
        return "the bytes end inside a number or before one that is due";
    case GAFFMEDLAR_REFUSED_NUMBER_FORM:
        return "a last byte of 0 after another byte, or a third byte with its top bit set";
    case GAFFMEDLAR_REFUSED_STAGE_COUNT:
        return "stage count not 1 to 32";
    case GAFFMEDLAR_REFUSED_RULE_COUNT:
        return "rule count not 1 to 128";
    case GAFFMEDLAR_REFUSED_FORM:
        return "form above 2";
    case GAFFMEDLAR_REFUSED_STAGE:
        return "a stage number not below the stage count";
    case GAFFMEDLAR_REFUSED_NAME:
        return "a name above 65,535";
    case GAFFMEDLAR_REFUSED_RULE_TWICE:
        return "a rule equal in form and all fields to an earlier rule";
    case GAFFMEDLAR_REFUSED_BYTES_FOLLOW:
        return "bytes follow the last rule or token";
    case GAFFMEDLAR_REFUSED_TOKEN_COUNT:
        return "token count above 1,024";
    case GAFFMEDLAR_REFUSED_TOKEN:
        return "a token number with a name above 65,535, or one that leaves 3 when divided by 4";
    case GAFFMEDLAR_REFUSED_CLOSE_WITHOUT_OPEN:
        return "a close with no step open";
    case GAFFMEDLAR_REFUSED_STILL_OPEN:
        return "a step still open after the last token";
    case GAFFMEDLAR_REFUSED_TOO_DEEP:
        return "an open while 128 steps are open";
    case GAFFMEDLAR_REFUSED_BUFFER_SHORT:
        return "a lent buffer shorter than its service writes or reads";
    case GAFFMEDLAR_REFUSED_NOT_A_READING:
        return "the first n + 1 bytes handed to \"next reading\" are no reading of this history";
    case GAFFMEDLAR_REFUSED_NOT_AN_OPEN:
        return "the position is not that of an open";
    case GAFFMEDLAR_REFUSED_OUT_OF_RANGE:
        return "k is 0 or above the count of readings, or the position is above n";
    case GAFFMEDLAR_NO_READING:
        return "none: the history has no reading";
    case GAFFMEDLAR_NO_FURTHER:
        return "no further: the reading in the buffer is the last one";
    case GAFFMEDLAR_OVER:
        return "over: there are more than 2^64 - 1 readings";
    default:
        return "no answer of this library";
    }
}

/* NULL for what has length 0: from here on the name of each function stands for one that hands over some address in its
 * place. Nothing is read or written there. */
static inline const uint8_t *gaffmedlar_read_(const uint8_t *bytes, size_t length)
{
    static const uint8_t empty = 0;
    return bytes == NULL && length == 0 ? &empty : bytes;
}

static inline uint8_t *gaffmedlar_buffer_(uint8_t *bytes, size_t length)
{
    static uint8_t empty;
    return bytes == NULL && length == 0 ? &empty : bytes;
}

static inline const uint32_t *gaffmedlar_numbers_(const uint32_t *numbers, size_t length)
{
    static const uint32_t empty = 0;
    return numbers == NULL && length == 0 ? &empty : numbers;
}

static inline uint32_t *gaffmedlar_word_buffer_(uint32_t *words, size_t length)
{
    static uint32_t empty;
    return words == NULL && length == 0 ? &empty : words;
}

static inline struct gaffmedlar_grammar gaffmedlar_grammar_check_(const uint8_t *grammar, size_t grammar_len)
{
    return gaffmedlar_grammar_check(gaffmedlar_read_(grammar, grammar_len), grammar_len);
}

static inline struct gaffmedlar_history gaffmedlar_history_check_(const uint8_t *history, size_t history_len)
{
    return gaffmedlar_history_check(gaffmedlar_read_(history, history_len), history_len);
}

static inline uint8_t gaffmedlar_first_reading_(const uint8_t *grammar, size_t grammar_len, const uint8_t *history,
                                                size_t history_len, uint8_t *reading, size_t reading_len)
{
    return gaffmedlar_first_reading(gaffmedlar_read_(grammar, grammar_len), grammar_len,
                                    gaffmedlar_read_(history, history_len), history_len,
                                    gaffmedlar_buffer_(reading, reading_len), reading_len);
}

static inline uint8_t gaffmedlar_next_reading_(const uint8_t *grammar, size_t grammar_len, const uint8_t *history,
                                               size_t history_len, uint8_t *reading, size_t reading_len)
{
    return gaffmedlar_next_reading(gaffmedlar_read_(grammar, grammar_len), grammar_len,
                                   gaffmedlar_read_(history, history_len), history_len,
                                   gaffmedlar_buffer_(reading, reading_len), reading_len);
}

static inline uint8_t gaffmedlar_run_calls_(const uint8_t *grammar, size_t grammar_len, const uint8_t *history,
                                            size_t history_len, const uint8_t *calls, size_t calls_len,
                                            uint8_t *answers, size_t answers_len, uint8_t *buffer, size_t buffer_len)
{
    return gaffmedlar_run_calls(gaffmedlar_read_(grammar, grammar_len), grammar_len,
                                gaffmedlar_read_(history, history_len), history_len,
                                gaffmedlar_read_(calls, calls_len), calls_len,
                                gaffmedlar_buffer_(answers, answers_len), answers_len,
                                gaffmedlar_buffer_(buffer, buffer_len), buffer_len);
}

static inline struct gaffmedlar_count gaffmedlar_sets_(const uint8_t *grammar, size_t grammar_len,
                                                       const uint8_t *history, size_t history_len, uint32_t *words,
                                                       size_t words_len)
{
    return gaffmedlar_sets(gaffmedlar_read_(grammar, grammar_len), grammar_len,
                           gaffmedlar_read_(history, history_len), history_len,
                           gaffmedlar_word_buffer_(words, words_len), words_len);
}

static inline struct gaffmedlar_count gaffmedlar_choice_count_(const uint8_t *grammar, size_t grammar_len,
                                                               const uint8_t *history, size_t history_len)
{
    return gaffmedlar_choice_count(gaffmedlar_read_(grammar, grammar_len), grammar_len,
                                   gaffmedlar_read_(history, history_len), history_len);
}

static inline struct gaffmedlar_readings gaffmedlar_reading_count_(const uint8_t *grammar, size_t grammar_len,
                                                                   const uint8_t *history, size_t history_len)
{
    return gaffmedlar_reading_count(gaffmedlar_read_(grammar, grammar_len), grammar_len,
                                    gaffmedlar_read_(history, history_len), history_len);
}

static inline struct gaffmedlar_readings gaffmedlar_reading_count_at_(const uint8_t *grammar, size_t grammar_len,
                                                                      const uint8_t *history, size_t history_len,
                                                                      size_t position, size_t rule)
{
    return gaffmedlar_reading_count_at(gaffmedlar_read_(grammar, grammar_len), grammar_len,
                                       gaffmedlar_read_(history, history_len), history_len, position, rule);
}

static inline uint8_t gaffmedlar_reading_at_(const uint8_t *grammar, size_t grammar_len, const uint8_t *history,
                                             size_t history_len, uint64_t k, uint8_t *reading, size_t reading_len)
{
    return gaffmedlar_reading_at(gaffmedlar_read_(grammar, grammar_len), grammar_len,
                                 gaffmedlar_read_(history, history_len), history_len, k,
                                 gaffmedlar_buffer_(reading, reading_len), reading_len);
}

static inline uint8_t gaffmedlar_stop_marks_(const uint8_t *grammar, size_t grammar_len, const uint8_t *history,
                                             size_t history_len, uint8_t *marks, size_t marks_len)
{
    return gaffmedlar_stop_marks(gaffmedlar_read_(grammar, grammar_len), grammar_len,
                                 gaffmedlar_read_(history, history_len), history_len,
                                 gaffmedlar_buffer_(marks, marks_len), marks_len);
}

static inline struct gaffmedlar_part gaffmedlar_step_bytes_(const uint8_t *history, size_t history_len,
                                                            size_t position)
{
    return gaffmedlar_step_bytes(gaffmedlar_read_(history, history_len), history_len, position);
}

static inline uint8_t gaffmedlar_step_refusal_(const uint8_t *history, size_t history_len, size_t position)
{
    return gaffmedlar_step_refusal(gaffmedlar_read_(history, history_len), history_len, position);
}

static inline struct gaffmedlar_written gaffmedlar_write_grammar_(const uint32_t *numbers, size_t numbers_len,
                                                                  uint8_t *file, size_t file_len)
{
    return gaffmedlar_write_grammar(gaffmedlar_numbers_(numbers, numbers_len), numbers_len,
                                    gaffmedlar_buffer_(file, file_len), file_len);
}

static inline struct gaffmedlar_written gaffmedlar_write_history_(const uint32_t *numbers, size_t numbers_len,
                                                                  uint8_t *file, size_t file_len)
{
    return gaffmedlar_write_history(gaffmedlar_numbers_(numbers, numbers_len), numbers_len,
                                    gaffmedlar_buffer_(file, file_len), file_len);
}

#define gaffmedlar_grammar_check gaffmedlar_grammar_check_
#define gaffmedlar_history_check gaffmedlar_history_check_
#define gaffmedlar_first_reading gaffmedlar_first_reading_
#define gaffmedlar_next_reading gaffmedlar_next_reading_
#define gaffmedlar_run_calls gaffmedlar_run_calls_
#define gaffmedlar_sets gaffmedlar_sets_
#define gaffmedlar_choice_count gaffmedlar_choice_count_
#define gaffmedlar_reading_count gaffmedlar_reading_count_
#define gaffmedlar_reading_count_at gaffmedlar_reading_count_at_
#define gaffmedlar_reading_at gaffmedlar_reading_at_
#define gaffmedlar_stop_marks gaffmedlar_stop_marks_
#define gaffmedlar_step_bytes gaffmedlar_step_bytes_
#define gaffmedlar_step_refusal gaffmedlar_step_refusal_
#define gaffmedlar_write_grammar gaffmedlar_write_grammar_
#define gaffmedlar_write_history gaffmedlar_write_history_

#ifdef __cplusplus
}
#endif

#endif
