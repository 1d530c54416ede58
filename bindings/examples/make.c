/*
 * Case state S1 from nothing, as tables are made at the start: by the names of
 * the header alone. Prints the check's answer, each word that is not 0, and
 * whether the tables are those of a state file.
 *
 *   make [FILE]    compared with FILE, by default examples/state.words
 */
#include <inttypes.h>
#include <stdio.h>
#include <stdlib.h>

#include "mms.h"

/* A user who is present, on a device or, with 0, logged off. */
static void put_user(uint32_t *tables, uint32_t user, uint32_t clearance, uint32_t authorised, uint32_t current,
                     uint32_t device)
{
    uint32_t *words = tables + mms_user_at(user);

    words[MMS_USER_PRESENT] = 1;
    words[MMS_USER_CLEARANCE] = clearance;
    words[MMS_USER_AUTHORISED] = authorised;
    words[MMS_USER_CURRENT] = current;
    words[MMS_USER_DEVICE] = device;
}

/* An entity of this kind and level; gives its words, for those that others do not have. */
static uint32_t *put_entity(uint32_t *tables, uint32_t entity, uint32_t kind, uint32_t level)
{
    uint32_t *words = tables + mms_entity_at(entity);

    words[MMS_ENTITY_KIND] = kind;
    words[MMS_ENTITY_LEVEL] = level;
    return words;
}

/* A container holds the entity behind what it holds already. */
static void put_inside(uint32_t *container, uint32_t entity)
{
    container[MMS_ENTITY_CONTENTS + container[MMS_ENTITY_USED]] = entity;
    container[MMS_ENTITY_USED]++;
}

static void put_users(uint32_t *tables)
{
    put_user(tables, 1, MMS_LEVEL_MOST, MMS_OFFICER + MMS_DOWNGRADER + MMS_RELEASER, MMS_OFFICER, 1);
    put_user(tables, 2, mms_level(1, 0), 0, 0, 2);
    put_user(tables, 3, mms_level(2, 1), MMS_DOWNGRADER + MMS_RELEASER, 0, 0);
}

static void put_devices(uint32_t *tables)
{
    uint32_t *third = put_entity(tables, 3, MMS_DEVICE, mms_level(0, 0));

    put_entity(tables, 1, MMS_DEVICE, MMS_LEVEL_MOST)[MMS_ENTITY_MAXIMUM] = MMS_LEVEL_MOST;
    put_entity(tables, 2, MMS_DEVICE, mms_level(2, 0))[MMS_ENTITY_MAXIMUM] = mms_level(2, 0);
    third[MMS_ENTITY_MAXIMUM] = MMS_LEVEL_MOST;
    third[MMS_ENTITY_TRIPLES] = mms_triple(3, MMS_LOGIN, 1);
}

static void put_others(uint32_t *tables)
{
    uint32_t *marked = put_entity(tables, 4, MMS_CONTAINER, mms_level(2, 1));
    uint32_t *object = put_entity(tables, 5, MMS_OBJECT, mms_level(1, 0));
    uint32_t *draft = put_entity(tables, 6, MMS_CONTAINER, mms_level(2, 1));
    uint32_t *empty = put_entity(tables, 7, MMS_CONTAINER, mms_level(1, 0));

    marked[MMS_ENTITY_MARK] = 1;
    put_inside(marked, 5);
    put_inside(marked, 6);
    object[MMS_ENTITY_VALUE] = 40;
    object[MMS_ENTITY_TRIPLES] = mms_triple(2, MMS_SHOW, 1);
    object[MMS_ENTITY_TRIPLES + 1] = mms_triple(2, MMS_COPY, 1);
    draft[MMS_ENTITY_TYPE] = MMS_DRAFT;
    draft[MMS_ENTITY_VALUE] = 41;
    draft[MMS_ENTITY_TRIPLES] = mms_triple(1, MMS_RELEASE, 1);
    empty[MMS_ENTITY_TRIPLES] = mms_triple(2, MMS_COPY, 2);
    empty[MMS_ENTITY_TRIPLES + 1] = mms_triple(2, MMS_CREATE, 1);
    empty[MMS_ENTITY_TRIPLES + 2] = mms_triple(1, MMS_SET_LEVEL, 1);
}

/* Whether the file has these tables: each word is four bytes, the lowest first. */
static int is_in(const uint32_t *tables, const char *name)
{
    FILE *file = fopen(name, "rb");
    int same = file != NULL;

    for (size_t i = 0; same && i < MMS_STATE_BYTES; i++)
        same = fgetc(file) == (int)(tables[i / 4] >> 8 * (i % 4) & 255);
    same = same && fgetc(file) == EOF;
    if (file != NULL)
        fclose(file);
    return same;
}

int main(int count, char **arguments)
{
    static uint32_t tables[MMS_TABLE_WORDS]; /* all 0: nobody and nothing */
    const char *name = count > 1 ? arguments[1] : "examples/state.words";
    int same;

    put_users(tables);
    put_devices(tables);
    put_others(tables);
    printf("check %" PRIu32 "\n", mms_answer(mms_check(tables, MMS_TABLE_WORDS)));
    for (size_t i = 0; i < MMS_TABLE_WORDS; i++)
        if (tables[i] != 0)
            printf("word %zu is %" PRIu32 "\n", i, tables[i]);
    same = is_in(tables, name);
    printf("%s has %s\n", name, same ? "the same" : "others");
    return same ? EXIT_SUCCESS : EXIT_FAILURE;
}
