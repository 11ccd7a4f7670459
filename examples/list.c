/* Lists the readings of a history: list_c GRAMMAR HISTORY
 *
 * The status is that of ./list: 0 readings are listed, 1 there is none, 2 a file is refused, 3 a file is missing or can't be read,
 * or the listing could not be written whole.
 *
 * Build, in the repository's root:
 *     tools/build library
 *     cc -O2 -Iinclude -o target/list_c examples/list.c target/staticlib/libgaffmedlar.a
 */
#include "gaffmedlar.h"

#include <stdio.h>

#define FILE_BYTES 4096
#define MOST 1000

enum status { LISTED, NONE, REFUSED, FAILED };

struct file {
    uint8_t bytes[FILE_BYTES];
    size_t length;
};

/* Reads the first bytes of a file. One that is missing or can't be read counts as empty, which is said and answered by 0. */
static int read_file(const char *name, struct file *into)
{
    FILE *file = fopen(name, "rb");
    if (file == NULL) {
        perror(name);
        return 0;
    }
    into->length = fread(into->bytes, 1, FILE_BYTES, file);
    int whole = !ferror(file);
    if (!whole)
        perror(name);
    fclose(file);
    return whole;
}

/* Prints the readings of two files that pass. The buffer is long enough, so 0, 100 and 101 are all that can come. */
static enum status list_readings(const struct file *grammar, const struct file *history, int tokens)
{
    static uint8_t reading[GAFFMEDLAR_READING_MAX];
    int answer = gaffmedlar_first_reading(grammar->bytes, grammar->length, history->bytes, history->length, reading,
                                          sizeof reading);
    if (answer == GAFFMEDLAR_NO_READING) {
        printf("none\n");
        return NONE;
    }
    struct gaffmedlar_count choices =
        gaffmedlar_choice_count(grammar->bytes, grammar->length, history->bytes, history->length);
    printf("choices %u\n", (unsigned)choices.count);

    int printed = 0;
    while (answer == GAFFMEDLAR_OK && printed < MOST) {
        printed++;
        printf("%d:", printed);
        for (int position = 0; position <= tokens; position++)
            printf(" %d", reading[position]);
        printf("\n");
        answer = gaffmedlar_next_reading(grammar->bytes, grammar->length, history->bytes, history->length, reading,
                                         sizeof reading);
    }
    printf(answer == GAFFMEDLAR_OK ? "more %d\n" : "end %d\n", printed);
    return LISTED;
}

static enum status list(const struct file *grammar, const struct file *history)
{
    struct gaffmedlar_grammar checked = gaffmedlar_grammar_check(grammar->bytes, grammar->length);
    if (checked.answer != GAFFMEDLAR_OK) {
        printf("refused grammar %d\n", checked.answer);
        return REFUSED;
    }
    struct gaffmedlar_history read = gaffmedlar_history_check(history->bytes, history->length);
    if (read.answer != GAFFMEDLAR_OK) {
        printf("refused history %d\n", read.answer);
        return REFUSED;
    }
    printf("tokens %d\n", read.tokens);
    return list_readings(grammar, history, read.tokens);
}

int main(int count, char **words)
{
    static struct file grammar, history;
    if (count != 3) {
        fprintf(stderr, "usage: list_c GRAMMAR HISTORY\n");
        return FAILED;
    }
    int readable = read_file(words[1], &grammar) & read_file(words[2], &history);
    enum status status = list(&grammar, &history);
    if (!readable)
        status = FAILED;

    /* printf keeps what it prints for a while: only now it is known whether all of it was written */
    int lost = ferror(stdout);
    if (fclose(stdout) != 0 || lost) {
        perror("list_c: the listing could not be written whole");
        return FAILED;
    }
    return status;
}
