/*
 * The message desk for C and C++: the eight calls of the proved archive,
 * libmms.a, and names for the numbers that they take and give. Rules are cited
 * by their numbers in docs/RULES.md, which says all that the calls do.
 *
 * A slice is a pointer, then a length in elements (words or bytes). Any length
 * may be given: tables that are not 2,304 words, requests that are not 16 words
 * each and fewer places than requests are answered with 1, and a room that is
 * too short with 17.
 *
 * The caller sees to two things. Nothing in C can look at them, and what is
 * proved of the calls rests on them:
 *
 *   - A pointer is valid and aligned for as many elements as its length says.
 *     With length 0 it is any pointer that is not null, to anything.
 *   - What a call may write to does not overlap the call's other slices: the
 *     tables of a step not its request, the tables and the places of a run not
 *     each other and not its requests, the room of a list not the tables, the
 *     words or tables that are read not their text, the text that is written
 *     not its words or tables.
 *
 * Of the contents nothing is asked: each call answers for any words and bytes.
 *
 * No call keeps a pointer, allocates, or touches anything that it was not lent,
 * so calls on different slices may run in different threads. Calls that only
 * read a slice may share it.
 *
 * The archive is x86-64 code for Linux. It needs memset of the C library.
 */
#ifndef MMS_H
#define MMS_H

#include <stddef.h>
#include <stdint.h>

#ifdef __cplusplus
extern "C" {
#endif

/* ---- the calls ---- */

/*
 * Each call returns an answer and a number that goes with it, in one word of
 * 64 bits; mms_answer and mms_number take them apart. The number is
 *
 *   with MMS_ACCEPTED of mms_list    the entries that it wrote
 *   with MMS_ACCEPTED of mms_write   the bytes that it wrote, and so it is of
 *                                    mms_write_tables
 *   with MMS_TOO_SHORT               the entries or bytes that there are
 *   with MMS_NOT_A_REQUEST           the first line that is bad or missing,
 *                                    from 1 on; of a request 1 to 7, or 8 for
 *                                    bytes behind the last
 *   and else                         0
 *
 * What is not said to change stays as it was.
 */

/* The state check (8.5): 0 to 3. */
uint64_t mms_check(const uint32_t *tables, size_t tables_len);

/*
 * One request (6 to 8): 0 to 16. With 0 the tables change by its effect; with 5
 * to 16 the requester's words 5 to 7 take the notice.
 */
uint64_t mms_step(uint32_t *tables, size_t tables_len, const uint32_t *request, size_t request_len);

/*
 * Requests one behind the other, of MMS_REQUEST_WORDS words each: 0 or 1. With 0
 * the tables were checked once, and each request was done on what those before
 * it left: tables and answers are those of as many calls of mms_step. Place i of
 * `answers` has the bare answer of request i, 0 or 2 to 16; places behind the
 * last request stay. A refused request does not end the run. Where the tables
 * fail the check, every answer is 2 or 3, and the tables stay.
 *
 * It is 1 where the tables are not MMS_TABLE_WORDS words, the words of the
 * requests no multiple of MMS_REQUEST_WORDS, or the places fewer than the
 * requests; then neither tables nor places change.
 */
uint64_t mms_run(uint32_t *tables, size_t tables_len, const uint32_t *requests, size_t requests_len, uint32_t *answers,
                 size_t answers_len);

/*
 * The disclosure list of a user (10): 0, 1 to 4, 6 or 17. With 0 the entries,
 * of MMS_ENTRY_WORDS words each, stand at the front of the room; words behind
 * them stay. A room of length 0 asks how many there are.
 */
uint64_t mms_list(const uint32_t *tables, size_t tables_len, uint32_t user, uint32_t *room, size_t room_len);

/* The request of a text (11.4): 0, 1 or 18. With 0 its words are written. */
uint64_t mms_read(const uint8_t *text, size_t text_len, uint32_t *request, size_t request_len);

/*
 * The text of a request (11.3): 0, 1, 5 or 17. With 0 it stands at the front of
 * the room, with no zero behind it; bytes behind it stay. It has at most
 * MMS_TEXT_MOST bytes.
 */
uint64_t mms_write(const uint32_t *request, size_t request_len, uint8_t *room, size_t room_len);

/*
 * The text of tables (16.4): 0, 1, 2 or 17. With 0 it stands at the front of the
 * room, with no zero behind it; bytes behind it stay. Tables that are well-formed
 * and not secure are written. It has at most MMS_TABLES_TEXT_MOST bytes, so that
 * a room of that length is never too short; a room of length 0 asks how many
 * there are.
 */
uint64_t mms_write_tables(const uint32_t *tables, size_t tables_len, uint8_t *room, size_t room_len);

/*
 * The tables of a text (16.5): 0, 1, 2 or 18. With 0 all their words are written.
 * 18 comes before 2: the text is read to its end first, and where each line is
 * good and the tables are not well-formed it is 2.
 */
uint64_t mms_read_tables(const uint8_t *text, size_t text_len, uint32_t *tables, size_t tables_len);

/* The answer, an mms_refusal, of what a call returned. */
static inline uint32_t mms_answer(uint64_t returned)
{
    return (uint32_t)(returned >> 32);
}

/* The number that goes with it. */
static inline uint32_t mms_number(uint64_t returned)
{
    return (uint32_t)(returned & UINT32_C(0xFFFFFFFF));
}

/* ---- sizes ---- */

enum mms_size {
    MMS_USERS = 16,
    MMS_USER_WORDS = 16,
    MMS_ENTITIES = 64,
    MMS_ENTITY_WORDS = 32,
    MMS_TABLE_WORDS = 2304,
    MMS_STATE_BYTES = 9216, /* of tables in a file: four bytes a word, the lowest first */
    MMS_REQUEST_WORDS = 16,
    MMS_NAMES = 4,       /* of a reference, at most */
    MMS_ENTRY_WORDS = 5, /* of a reference: its length, four names, 0 behind the length */
    MMS_PLACES = 8,
    MMS_TRIPLES = 8,
    MMS_TEXT_MOST = 166,          /* bytes of the longest text of a request */
    MMS_TABLES_TEXT_MOST = 17721, /* bytes of the longest text of tables */
    MMS_LEVEL_MOST = 1023,
    MMS_ROLES_MOST = 255,
    MMS_MISSED_MOST = 65535
};

/* ---- answers (7) ---- */

enum mms_refusal {
    MMS_ACCEPTED = 0,          /* done */
    MMS_BAD_LENGTH = 1,        /* tables or a request of another length, or too few places for answers */
    MMS_NOT_WELL_FORMED = 2,   /* the tables are not well-formed (3) */
    MMS_NOT_SECURE = 3,        /* the tables are not secure (4) */
    MMS_UNKNOWN_REQUESTER = 4, /* who asks is no present user */
    MMS_BAD_REQUEST = 5,       /* no such operation, or words that it does not take */
    MMS_NOT_LOGGED_ON = 6,     /* the requester is logged off */
    MMS_NO_SUCH_NAME = 7,      /* a reference leads nowhere */
    MMS_NO_ACCESS = 8,         /* an operand has no triple that permits this */
    MMS_MARKED = 9,            /* a marked container on the way is above the requester's clearance */
    MMS_WRONG_KIND = 10,       /* an operand is of the wrong kind or type */
    MMS_NO_SUCH_USER = 11,     /* the user spoken of is absent, or logged off and to have roles */
    MMS_ROLE_MISSING = 12,     /* the requester lacks a role */
    MMS_LEVEL_OR_ROLES = 13,   /* a level or a set of roles stands in the way */
    MMS_NO_ROOM = 14,          /* there is no room in the tables */
    MMS_ARRANGEMENT = 15,      /* the arrangement does not allow it */
    MMS_NOT_ACKNOWLEDGED = 16, /* the acknowledgement is not of what is held */
    MMS_TOO_SHORT = 17,        /* the room lent for output is too short */
    MMS_NOT_A_REQUEST = 18     /* the text is no request, or not one of tables */
};

/* ---- requests (5, 6) ---- */

enum mms_request_word {
    MMS_REQUEST_USER = 0,
    MMS_REQUEST_OPERATION = 1,
    MMS_REQUEST_FIRST = 2,  /* the first reference: its length, then its names */
    MMS_REQUEST_SECOND = 7, /* the second */
    MMS_REQUEST_A = 12,
    MMS_REQUEST_B = 13,
    MMS_REQUEST_C = 14,
    MMS_REQUEST_SPARE = 15 /* 0 */
};

/* Each with its operands, as first and second reference, and its arguments. */
enum mms_operation {
    MMS_CREATE = 1,            /* container; a sort, b level */
    MMS_DELETE = 2,            /* entity */
    MMS_MOVE = 3,              /* entity, container */
    MMS_EDIT = 4,              /* entity; a value */
    MMS_COPY = 5,              /* entity, entity */
    MMS_SET_LEVEL = 6,         /* entity; a level */
    MMS_SET_MARK = 7,          /* container; a 0 or 1 */
    MMS_GRANT = 8,             /* any; a who, b operation, c position */
    MMS_REVOKE = 9,            /* any; a who, b operation, c position */
    MMS_SHOW = 10,             /* entity; a shown sum */
    MMS_CLEAR = 11,            /* none */
    MMS_LOGIN = 12,            /* device */
    MMS_LOGOUT = 13,           /* none */
    MMS_CURRENT_ROLES = 14,    /* a user, b roles */
    MMS_CLEARANCE = 15,        /* a user, b level */
    MMS_AUTHORISED_ROLES = 16, /* a user, b roles */
    MMS_MAXIMUM = 17,          /* device; a level */
    MMS_DEVICE_LEVEL = 18,     /* device; a level */
    MMS_RELEASE = 19,          /* draft */
    MMS_ACKNOWLEDGE = 20       /* a held refusal, b missed */
};

/* What MMS_CREATE makes. */
enum mms_sort { MMS_SORT_OBJECT = 1, MMS_SORT_CONTAINER = 2, MMS_SORT_DRAFT = 3 };

/* ---- the tables (2) ---- */

enum mms_user_word {
    MMS_USER_PRESENT = 0,
    MMS_USER_CLEARANCE = 1,
    MMS_USER_AUTHORISED = 2,
    MMS_USER_CURRENT = 3,
    MMS_USER_DEVICE = 4,         /* 0 is logged off */
    MMS_USER_HELD = 5,           /* the refusal held, 0 for none */
    MMS_USER_HELD_OPERATION = 6, /* its operation */
    MMS_USER_MISSED = 7,         /* refusals since the last acknowledgement */
    MMS_USER_SPARE = 8           /* 8 to 15 are 0 */
};

enum mms_entity_word {
    MMS_ENTITY_KIND = 0,
    MMS_ENTITY_TYPE = 1,
    MMS_ENTITY_LEVEL = 2,
    MMS_ENTITY_MARK = 3,
    MMS_ENTITY_VALUE = 4,
    MMS_ENTITY_RELEASER = 5,
    MMS_ENTITY_MAXIMUM = 6,
    MMS_ENTITY_USED = 7,     /* how many places are in use */
    MMS_ENTITY_CONTENTS = 8, /* 8 to 15: what stands in each place */
    MMS_ENTITY_SHOWN = 16,   /* 16 to 23: what a device shows of each */
    MMS_ENTITY_TRIPLES = 24  /* 24 to 31 */
};

enum mms_kind { MMS_ABSENT = 0, MMS_OBJECT = 1, MMS_CONTAINER = 2, MMS_DEVICE = 3 };

enum mms_type { MMS_PLAIN = 0, MMS_DRAFT = 1, MMS_RELEASED = 2 };

/* Roles are added; 8 to 128 are house roles. */
enum mms_role { MMS_OFFICER = 1, MMS_DOWNGRADER = 2, MMS_RELEASER = 4 };

/* What is shown of an entity is added. */
enum mms_shown { MMS_SHOWN_VALUE = 1, MMS_SHOWN_LABEL = 2, MMS_SHOWN_ID = 4 };

/* In a triple, users are 1 to 16, and the roles 1, 2, 4 .. 128 are 17 to 24. */
enum mms_who { MMS_WHO_OFFICER = 17, MMS_WHO_DOWNGRADER = 18, MMS_WHO_RELEASER = 19, MMS_WHO_MOST = 24 };

/* Where the record of a user, 1 to 16, begins. */
static inline size_t mms_user_at(uint32_t user)
{
    return (size_t)(user - 1) * MMS_USER_WORDS;
}

/* Where the record of an entity, 1 to 64, begins. */
static inline size_t mms_entity_at(uint32_t entity)
{
    return (size_t)MMS_USERS * MMS_USER_WORDS + (size_t)(entity - 1) * MMS_ENTITY_WORDS;
}

/* The level of a rank, 0 to 3, with compartments, 0 to 255 (1.1). */
static inline uint32_t mms_level(uint32_t rank, uint32_t compartments)
{
    return rank * 256 + compartments;
}

/* An access triple (2.5): position 1 or 2 is the first or second operand. */
static inline uint32_t mms_triple(uint32_t who, uint32_t operation, uint32_t position)
{
    return who * 65536 + operation * 256 + position;
}

#ifdef __cplusplus
}
#endif

#endif
