/*
 * maltorhu.h - the calls of libmaltorhu.a, for C and C++.
 *
 * The host owns all memory and lends it to each call:
 *
 *   root      the description of the base: items, sets, paths
 *   area      the base itself, maltorhu_area_words() words of it
 *   cursors   where the caller stands in each of 16 sets; all 0 is fresh
 *   status    ten words in which every call says how it went
 *
 * A table goes over as a pointer and its count of elements. Pointers are
 * never NULL, also where the count is 0, and tables do not overlap. One call
 * at a time works on a base; locking, files and passwords are the host's.
 *
 * What each call returns, and what it answers, are two things:
 *
 *   returned 0   the call was worked; its condition word, status[0], is 0 if
 *                it was accepted, and otherwise tells why it was refused
 *   returned 1   cursors, status or passed have another length than below;
 *                nothing was written, not even the status
 *
 * A refused call stores nothing and leaves the cursors as they were. Its
 * other nine status words are 0.
 */
#ifndef MALTORHU_H
#define MALTORHU_H

#include <stddef.h>
#include <stdint.h>

#ifdef __cplusplus
extern "C" {
#endif

/* ---- Lengths and limits ------------------------------------------------ */

enum {
    MALTORHU_SETS = 16,         /* sets of a base, at most; cursors, always */
    MALTORHU_SET_ITEMS = 16,    /* items of a set, at most */
    MALTORHU_SET_PATHS = 4,     /* paths of a detail, at most */
    MALTORHU_CURSOR = 4,        /* record, path, saved back, saved forward */
    MALTORHU_CURSORS = 64,      /* uint32_t in cursors */
    MALTORHU_STATUS = 10,       /* uint16_t in status */
    MALTORHU_PASSED = 4,        /* uint16_t in passed */
    MALTORHU_ENTRY_MOST = 512   /* words of the longest entry there can be */
};

/* ---- The root ---------------------------------------------------------- */

enum {                          /* types of an item */
    MALTORHU_I = 1,             /* signed number, two's complement */
    MALTORHU_K = 2,             /* unsigned number */
    MALTORHU_X = 3              /* characters, two to a word: dbpack */
};

enum {                          /* kinds of a set */
    MALTORHU_MANUAL = 1,        /* master whose entries the host puts */
    MALTORHU_AUTOMATIC = 2,     /* master that comes and goes with its lines */
    MALTORHU_DETAIL = 3         /* lines, chained to masters by paths */
};

typedef struct {
    uint16_t type;              /* MALTORHU_I, _K or _X */
    uint16_t words;             /* I and K: 1 or 2; X: 1 to 32 */
} maltorhu_item;

typedef struct {
    uint16_t master;            /* number of the master set */
    uint16_t search;            /* item that finds the chain */
    uint16_t sort;              /* K or X item that orders it; 0: none */
} maltorhu_path;

typedef struct {
    uint16_t kind;              /* MALTORHU_MANUAL, _AUTOMATIC or _DETAIL */
    uint16_t capacity;          /* 1 to 4,095 records */
    uint16_t item_count;
    uint16_t key;               /* a master's key item; 0 for a detail */
    uint16_t path_count;        /* a detail's paths; 0 for a master */
    uint16_t items[MALTORHU_SET_ITEMS];
    maltorhu_path paths[MALTORHU_SET_PATHS];
} maltorhu_set;

/*
 * A root is two counts, then the items, then the sets, all of it words, and
 * every unused place 0. For five items and three sets:
 *
 *   static const struct {
 *       uint16_t item_count, set_count;
 *       maltorhu_item items[5];
 *       maltorhu_set sets[3];
 *   } root = { 5, 3, { {MALTORHU_K, 1}, ... }, { { .kind = ... }, ... } };
 *
 * It is passed as (const uint16_t *)&root, sizeof root / sizeof(uint16_t).
 * Items and sets are numbered from 1, in the order in which they stand.
 */
typedef char maltorhu_set_is_33_words
    [sizeof(maltorhu_set) == 33 * sizeof(uint16_t) ? 1 : -1];

/* ---- Modes of dbget ---------------------------------------------------- */

enum {
    MALTORHU_GET_CURRENT = 1,   /* the current record again; 17 */
    MALTORHU_GET_NEXT = 2,      /* lowest live record above it; 11 at the end */
    MALTORHU_GET_PREVIOUS = 3,  /* highest live record below it; 10 */
    MALTORHU_GET_RECORD = 4,    /* the record given by number; 12, 13, 17 */
    MALTORHU_GET_FORWARD = 5,   /* next line of the chain; 15 at its end */
    MALTORHU_GET_BACK = 6,      /* line before in the chain; 14 */
    MALTORHU_GET_KEY = 7        /* the master entry with the key given; 17 */
};

/* ---- Condition words --------------------------------------------------- */

enum {
    MALTORHU_DONE = 0,

    /* The call was wrong in itself: mend the program. */
    MALTORHU_BAD_ROOT = -91,        /* the root breaks a rule */
    MALTORHU_BAD_AREA = -92,        /* the area has not the root's length */
    MALTORHU_NO_SET = -21,          /* no such set; find on a master */
    MALTORHU_BAD_CURSOR = -93,      /* this set's cursor: no such path or record */
    MALTORHU_IS_AUTOMATIC = -24,    /* put, update, delete on an automatic master */
    MALTORHU_BAD_MODE = -31,        /* not 1 to 7; 5, 6 on a master; 7 on a detail */
    MALTORHU_NO_SEARCH_ITEM = -52,  /* find by an item that is no search item */
    MALTORHU_BAD_LENGTH = -95,      /* entry or value of the wrong length */
    MALTORHU_NO_PATH = -94,         /* mode 5 or 6 without a find before it */
    MALTORHU_SHORT_BUFFER = 50,     /* get: the entry does not fit the buffer */

    /* There is nothing to read there. */
    MALTORHU_BEGIN_OF_SET = 10,
    MALTORHU_END_OF_SET = 11,
    MALTORHU_RECORD_ZERO = 12,      /* record 0 asked for */
    MALTORHU_RECORD_ABOVE = 13,     /* record above the capacity asked for */
    MALTORHU_BEGIN_OF_CHAIN = 14,
    MALTORHU_END_OF_CHAIN = 15,
    MALTORHU_NO_RECORD = 17,        /* no such entry, or the record is not live */

    /* The base does not allow it. */
    MALTORHU_SET_FULL = 16,
    MALTORHU_FIXED_ITEM = 41,       /* update of a key, search or sort item */
    MALTORHU_KEY_PRESENT = 43,      /* the master has this key already */
    MALTORHU_HAS_LINES = 44,        /* the master entry still has lines */
    MALTORHU_NO_MASTER_1 = 101,     /* no entry in the manual master of path 1 */
    MALTORHU_NO_MASTER_2 = 102,
    MALTORHU_NO_MASTER_3 = 103,
    MALTORHU_NO_MASTER_4 = 104,
    MALTORHU_MASTER_FULL_1 = 301,   /* the automatic master of path 1 is full */
    MALTORHU_MASTER_FULL_2 = 302,
    MALTORHU_MASTER_FULL_3 = 303,
    MALTORHU_MASTER_FULL_4 = 304,

    /*
     * A link or count cannot be right: the area was damaged from outside, or
     * these cursors are from before a delete that was made with others.
     */
    MALTORHU_DAMAGED = 18
};

/* ---- The calls --------------------------------------------------------- */

/*
 * Every call but dbmake also gives -91, -92, -21 and -93, and every call but
 * dbmake and dbupdate 18 on a damaged area; what is named with each call
 * below comes on top. Refusals are looked for in the order of the list above
 * as far as 50, and then as the steps of the call fall.
 */

/*
 * Makes an empty base: every word of the area becomes 0. Cursors that were in
 * use on it must be set to 0 by the host.
 * Status: ten zeros. Conditions: -91, -92.
 */
uint16_t dbmake(const uint16_t *root, size_t root_words,
                uint16_t *area, size_t area_words,
                uint16_t *status, size_t status_words);

/*
 * Finds the chain of a detail set whose search item has this value. The
 * chain becomes the current path; no line of it is read yet: the next mode 5
 * reads its first line, the next mode 6 its last. A master entry without
 * lines is a success with count 0.
 * Status: 0, 0, record 0, lines in the chain, last line, first line.
 * Conditions: -52, -95; 17 if the master has no such entry.
 */
uint16_t dbfind(const uint16_t *root, size_t root_words,
                const uint16_t *area, size_t area_words,
                uint32_t *cursors, size_t cursor_words,
                uint16_t set, uint16_t item,
                const uint16_t *value, size_t value_words,
                uint16_t *status, size_t status_words);

/*
 * Reads an entry into the buffer and makes its record current. The record
 * number counts in mode 4 only, the value (a key) in mode 7 only. Words of
 * the buffer behind the entry stay.
 * Status: 0, entry length, record, synonym count (master) or 0, line behind,
 * line ahead on the current path (0 without one).
 * Conditions: -31, -95 (mode 7), -94 (5, 6), 50; by mode 10 to 15 and 17.
 */
uint16_t dbget(const uint16_t *root, size_t root_words,
               const uint16_t *area, size_t area_words,
               uint32_t *cursors, size_t cursor_words,
               uint16_t set, uint16_t mode, uint32_t record,
               const uint16_t *value, size_t value_words,
               uint16_t *buffer, size_t buffer_words,
               uint16_t *status, size_t status_words);

/*
 * Puts an entry and makes its record current. A line joins a chain on each
 * of its paths: at the end if the path is not sorted, otherwise behind the
 * last line whose sort item is not greater, so that of two equal ones the
 * one put later stands later. `passed` tells for each sorted path how many
 * lines were passed on the way from the chain's end.
 * Status: as dbget.
 * Conditions: -24, -95; master: 43, then 16; detail: 16, then by path 101 to
 * 104 (no manual entry) and 301 to 304 (automatic master full).
 */
uint16_t dbput(const uint16_t *root, size_t root_words,
               uint16_t *area, size_t area_words,
               uint32_t *cursors, size_t cursor_words,
               uint16_t set,
               const uint16_t *entry, size_t entry_words,
               uint16_t *status, size_t status_words,
               uint16_t *passed, size_t passed_words);

/*
 * Replaces the current entry. Keys, search and sort items must be given as
 * they stand; to change one, delete the line and put it again.
 * Status: 0, entry length, zeros. The cursor stays.
 * Conditions: -24, -95; 17 if there is no live current record; 41.
 */
uint16_t dbupdate(const uint16_t *root, size_t root_words,
                  uint16_t *area, size_t area_words,
                  uint32_t *cursors, size_t cursor_words,
                  uint16_t set,
                  const uint16_t *entry, size_t entry_words,
                  uint16_t *status, size_t status_words);

/*
 * Deletes the current entry. The cursor stays, with the line behind and the
 * line ahead, so reading on in the chain works. Automatic entries go with
 * their last line; a manual entry goes only without lines.
 * Status: ten zeros.
 * Conditions: -24; 17 if there is no live current record; master: 44.
 */
uint16_t dbdelete(const uint16_t *root, size_t root_words,
                  uint16_t *area, size_t area_words,
                  uint32_t *cursors, size_t cursor_words,
                  uint16_t set,
                  uint16_t *status, size_t status_words);

/*
 * Characters into the words of an X item, the first one in the high byte,
 * filled up with blanks. Returns 1 and writes nothing if they do not fit.
 */
uint16_t dbpack(const uint8_t *text, size_t text_bytes,
                uint16_t *words, size_t word_count);

/*
 * The words of an X item into characters, without a closing 0. Returns 1 and
 * writes nothing if there are fewer than two characters for each word.
 */
uint16_t dbunpack(const uint16_t *words, size_t word_count,
                  uint8_t *text, size_t text_bytes);

/* ---- Reading the answers ----------------------------------------------- */

/* The condition word is signed, stored as two's complement. */
static inline int16_t maltorhu_condition(const uint16_t *status)
{
    int word = status[0];

    return (int16_t)(word < 0x8000 ? word : word - 0x10000);
}

/* A two-word number has its high word first: in the status and in items. */
static inline uint32_t maltorhu_number(const uint16_t *words)
{
    return (uint32_t)words[0] << 16 | words[1];
}

static inline void maltorhu_store(uint16_t *words, uint32_t number)
{
    words[0] = (uint16_t)(number >> 16);
    words[1] = (uint16_t)(number & 0xFFFF);
}

/* get, put: the record. */
static inline uint32_t maltorhu_record(const uint16_t *status)
{
    return maltorhu_number(status + 2);
}

/* find: lines in the chain; get, put on a master: synonym count. */
static inline uint32_t maltorhu_count(const uint16_t *status)
{
    return maltorhu_number(status + 4);
}

/* find: last line; get, put: the line behind. */
static inline uint32_t maltorhu_back(const uint16_t *status)
{
    return maltorhu_number(status + 6);
}

/* find: first line; get, put: the line ahead. */
static inline uint32_t maltorhu_forward(const uint16_t *status)
{
    return maltorhu_number(status + 8);
}

/*
 * Back to the beginning of this set (1 to 16): the next mode 2 reads its first
 * entry. The path of the last find stays.
 */
static inline void maltorhu_rewind(uint32_t *cursors, uint16_t set)
{
    uint32_t *cursor = cursors + (size_t)MALTORHU_CURSOR * (set - 1u);

    cursor[0] = cursor[2] = cursor[3] = 0;
}

/* ---- The area's length ------------------------------------------------- */

static inline size_t maltorhu_entry_words(const maltorhu_item *items,
                                          size_t item_count,
                                          const maltorhu_set *set)
{
    size_t words = 0;

    for (size_t i = 0; i < set->item_count && i < MALTORHU_SET_ITEMS; i++)
        if (1 <= set->items[i] && set->items[i] <= item_count)
            words += items[set->items[i] - 1].words;
    return words;
}

/* How many of this detail's paths lead to the master with this number. */
static inline size_t maltorhu_paths_to(const maltorhu_set *detail,
                                       size_t master)
{
    size_t paths = 0;

    for (size_t p = 0; p < detail->path_count && p < MALTORHU_SET_PATHS; p++)
        paths += detail->paths[p].master == master;
    return paths;
}

/* What stands before the entry: a line's links; synonym words and heads. */
static inline size_t maltorhu_link_words(const maltorhu_set *sets,
                                         size_t set_count, size_t number)
{
    size_t words = 5;

    if (sets[number - 1].kind == MALTORHU_DETAIL)
        return 4u * sets[number - 1].path_count;
    for (size_t s = 0; s < set_count; s++)
        words += 5 * maltorhu_paths_to(&sets[s], number);
    return words;
}

/*
 * The area's length in words: for each set two words, the map with one bit to
 * a record, and the records. If the root breaks a rule the number means
 * nothing; dbmake then answers -91, whatever the area's length is.
 */
static inline size_t maltorhu_area_words(const maltorhu_item *items,
                                         size_t item_count,
                                         const maltorhu_set *sets,
                                         size_t set_count)
{
    size_t words = 0;

    for (size_t s = 0; s < set_count; s++) {
        size_t capacity = sets[s].capacity;
        size_t record_words = maltorhu_link_words(sets, set_count, s + 1)
            + maltorhu_entry_words(items, item_count, &sets[s]);

        words += 2 + (capacity + 15) / 16 + capacity * record_words;
    }
    return words;
}

#ifdef __cplusplus
}
#endif

#endif
