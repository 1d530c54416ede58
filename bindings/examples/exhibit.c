/*
 * Tables as lines to be printed, and back: prints the text of the tables of a
 * state file, then whether they are read from it as they were, and what is said
 * of the text without its last byte.
 *
 *   exhibit [FILE]    the tables in FILE, by default examples/state.words
 */
#include <inttypes.h>
#include <stdbool.h>
#include <stdio.h>
#include <stdlib.h>
#include <string.h>

#include "mms.h"

/* The tables of a state file; false where it is not one. */
static bool load(const char *name, uint32_t *tables)
{
    FILE *file = fopen(name, "rb");
    bool loaded;

    if (file == NULL)
        return false;
    /* in the file, as in the memory of an x86-64, the lowest byte of a word is the first */
    loaded = fread(tables, 1, MMS_STATE_BYTES, file) == MMS_STATE_BYTES && fgetc(file) == EOF;
    fclose(file);
    return loaded;
}

/* Prints the tables' text, and tells its length; false where there is none. Tables with no record have a text of no bytes. */
static bool print_text(const uint32_t *tables, uint8_t text[MMS_TABLES_TEXT_MOST], size_t *length)
{
    uint64_t written = mms_write_tables(tables, MMS_TABLE_WORDS, text, MMS_TABLES_TEXT_MOST);

    if (mms_answer(written) != MMS_ACCEPTED) {
        fprintf(stderr, "the tables have no text: answer %" PRIu32 "\n", mms_answer(written));
        return false;
    }
    *length = mms_number(written);
    fwrite(text, 1, *length, stdout);
    return true;
}

/* Reads a text; prints the answer, and whether these are its tables or which line is bad. */
static bool read_again(const char *what, const uint8_t *text, size_t length, const uint32_t *tables)
{
    static uint32_t again[MMS_TABLE_WORDS];
    uint64_t read = mms_read_tables(text, length, again, MMS_TABLE_WORDS);
    uint32_t answer = mms_answer(read);
    bool same = answer == MMS_ACCEPTED && memcmp(again, tables, sizeof again) == 0;

    printf("%s: answer %" PRIu32, what, answer);
    if (answer == MMS_NOT_A_REQUEST)
        printf(", line %" PRIu32, mms_number(read));
    printf("%s\n", same ? ", the same tables" : "");
    return same;
}

int main(int count, char **arguments)
{
    static uint32_t tables[MMS_TABLE_WORDS];
    static uint8_t text[MMS_TABLES_TEXT_MOST];
    const char *name = count > 1 ? arguments[1] : "examples/state.words";
    size_t length;
    bool same;

    if (!load(name, tables)) {
        fprintf(stderr, "%s is no state file\n", name);
        return EXIT_FAILURE;
    }
    if (!print_text(tables, text, &length))
        return EXIT_FAILURE;
    if (length > 0)
        read_again("without its last byte", text, length - 1, tables);
    same = read_again("whole", text, length, tables);
    return same ? EXIT_SUCCESS : EXIT_FAILURE;
}
