/*
 * A day in one call: all requests of a script, on the tables of a state file.
 * It prints the answer of each, and how many were done.
 *
 *   replay [FILE [SCRIPT]]    by default examples/state.words and
 *                             examples/copies.script
 */
#include <inttypes.h>
#include <stdbool.h>
#include <stdio.h>
#include <stdlib.h>

#include "mms.h"

enum { LINES = 7 /* of a request's text */ };

/* Requests one behind the other; behind the last there is room for one more. */
struct requests {
    uint32_t *words;
    size_t count;
};

/* The tables of a state file; false where it is not one. */
static bool load(const char *name, uint32_t *tables)
{
    FILE *file = fopen(name, "rb");
    bool loaded;

    if (file == NULL)
        return false;
    /* in the file, as in the memory of an x86-64, the lowest byte of a word is the first */
    loaded = fread(tables, 1, MMS_STATE_BYTES, file) == MMS_STATE_BYTES && fgetc(file) == EOF;
    fclose(file);
    return loaded;
}

/* The next seven lines of a script, or as much as there is; of lines that are too long, enough to see that they are. */
static size_t next_text(FILE *script, uint8_t text[MMS_TEXT_MOST + 1])
{
    size_t length = 0;

    for (int lines = 0; lines < LINES && length <= MMS_TEXT_MOST; lines += text[length++] == '\n') {
        int byte = fgetc(script);

        if (byte == EOF)
            break;
        text[length] = (uint8_t)byte;
    }
    return length;
}

/* The request of this text is the last; false where it is none or there is no memory. */
static bool add(struct requests *day, const uint8_t *text, size_t length)
{
    uint32_t *next = day->words + day->count * MMS_REQUEST_WORDS;
    uint32_t *grown;

    if (mms_answer(mms_read(text, length, next, MMS_REQUEST_WORDS)) != MMS_ACCEPTED)
        return false;
    day->count++;
    grown = (uint32_t *)realloc(day->words, (day->count + 1) * MMS_REQUEST_WORDS * sizeof *grown);
    if (grown != NULL)
        day->words = grown;
    return grown != NULL;
}

/* All requests of a script; false where it cannot be read to its end. */
static bool read_script(const char *name, struct requests *day)
{
    uint8_t text[MMS_TEXT_MOST + 1];
    FILE *script = fopen(name, "rb");
    bool good = script != NULL && day->words != NULL;
    size_t length;

    while (good && (length = next_text(script, text)) > 0)
        good = add(day, text, length);
    if (script != NULL)
        fclose(script);
    return good;
}

/* Does all requests in one call; false where there is no memory for their answers. */
static bool replay(uint32_t *tables, const struct requests *day)
{
    size_t words = day->count * MMS_REQUEST_WORDS, done = 0;
    /* one place more than needed, since malloc of nothing may give null */
    uint32_t *answers = (uint32_t *)malloc((day->count + 1) * sizeof *answers);
    bool ran = answers != NULL
        && mms_answer(mms_run(tables, MMS_TABLE_WORDS, day->words, words, answers, day->count)) == MMS_ACCEPTED;

    for (size_t i = 0; ran && i < day->count; i++) {
        printf("request %zu: answer %" PRIu32 "\n", i + 1, answers[i]);
        done += answers[i] == MMS_ACCEPTED;
    }
    if (ran)
        printf("%zu of %zu done\n", done, day->count);
    free(answers);
    return ran;
}

int main(int count, char **arguments)
{
    static uint32_t tables[MMS_TABLE_WORDS];
    struct requests day = { (uint32_t *)malloc(MMS_REQUEST_WORDS * sizeof(uint32_t)), 0 };
    const char *state = count > 1 ? arguments[1] : "examples/state.words";
    const char *script = count > 2 ? arguments[2] : "examples/copies.script";
    bool loaded = load(state, tables), understood = loaded && read_script(script, &day);
    bool done = understood && replay(tables, &day);

    if (!loaded)
        fprintf(stderr, "%s is no state file\n", state);
    else if (!understood)
        fprintf(stderr, "%s is no script: request %zu cannot be read\n", script, day.count + 1);
    free(day.words);
    return done ? EXIT_SUCCESS : EXIT_FAILURE;
}
