/*
 * Two requests and a list on case state S1: user 2 asks to be shown 4.1, which
 * lies in a marked container and is refused, then 5, which is accepted.
 *
 *   show [FILE]    with the tables in FILE, by default examples/state.words
 */
#include <inttypes.h>
#include <stdbool.h>
#include <stdio.h>
#include <stdlib.h>

#include "mms.h"

enum { USER = 2 };

/* The tables of a state file; false where it is not one. */
static bool load(const char *name, uint32_t *tables)
{
    static uint8_t bytes[MMS_STATE_BYTES + 1];
    FILE *file = fopen(name, "rb");
    size_t length;

    if (file == NULL)
        return false;
    length = fread(bytes, 1, sizeof bytes, file);
    fclose(file);
    for (size_t i = 0; i < MMS_TABLE_WORDS; i++) {
        const uint8_t *four = bytes + 4 * i;

        tables[i] = four[0] | (uint32_t)four[1] << 8 | (uint32_t)four[2] << 16 | (uint32_t)four[3] << 24;
    }
    return length == MMS_STATE_BYTES;
}

/* The names of a reference's five words, with dots between them. */
static void print_reference(const uint32_t *reference)
{
    for (uint32_t i = 1; i <= reference[0]; i++)
        printf("%s%" PRIu32, i == 1 ? "" : ".", reference[i]);
}

/* Asks for value and label of what the reference names; prints the answer, and the notice that the user now has. */
static void show(uint32_t *tables, const uint32_t *reference)
{
    const uint32_t *user = tables + mms_user_at(USER);
    uint32_t request[MMS_REQUEST_WORDS] = { 0 };
    uint32_t answer;

    request[MMS_REQUEST_USER] = USER;
    request[MMS_REQUEST_OPERATION] = MMS_SHOW;
    for (size_t i = 0; i < MMS_ENTRY_WORDS; i++)
        request[MMS_REQUEST_FIRST + i] = reference[i];
    request[MMS_REQUEST_A] = MMS_SHOWN_VALUE + MMS_SHOWN_LABEL;
    answer = mms_answer(mms_step(tables, MMS_TABLE_WORDS, request, MMS_REQUEST_WORDS));
    printf("show ");
    print_reference(reference);
    printf(": answer %" PRIu32 "; held %" PRIu32 " of operation %" PRIu32 ", missed %" PRIu32 "\n", answer,
           user[MMS_USER_HELD], user[MMS_USER_HELD_OPERATION], user[MMS_USER_MISSED]);
}

/* Prints all that the user could be shown; false where the list is refused or there is no memory for it. */
static bool print_list(const uint32_t *tables)
{
    uint32_t none;
    uint64_t asked = mms_list(tables, MMS_TABLE_WORDS, USER, &none, 0);
    size_t entries = mms_number(asked), words = entries * MMS_ENTRY_WORDS;
    uint32_t *room = (uint32_t *)malloc((words + 1) * sizeof *room);
    bool listed = room != NULL && mms_answer(mms_list(tables, MMS_TABLE_WORDS, USER, room, words)) == MMS_ACCEPTED;

    for (size_t i = 0; listed && i < entries; i++) {
        printf("may be shown ");
        print_reference(room + i * MMS_ENTRY_WORDS);
        printf("\n");
    }
    free(room);
    return listed;
}

int main(int count, char **arguments)
{
    static const uint32_t inside[MMS_ENTRY_WORDS] = { 2, 4, 1 }, direct[MMS_ENTRY_WORDS] = { 1, 5 };
    static uint32_t tables[MMS_TABLE_WORDS];
    const char *name = count > 1 ? arguments[1] : "examples/state.words";

    if (!load(name, tables)) {
        fprintf(stderr, "%s is no state file\n", name);
        return EXIT_FAILURE;
    }
    show(tables, inside);
    show(tables, direct);
    return print_list(tables) ? EXIT_SUCCESS : EXIT_FAILURE;
}
