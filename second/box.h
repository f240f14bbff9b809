/* The box: two sources, their sheets, and the calls on them.
 *
 * Everything here follows document 01 and the requests for lone rows, for heats
 * and for a fair share of the slots. The sheets belong to the caller and are lent
 * for one call; the session record is the caller's too. */
#ifndef BOX_H
#define BOX_H

#include <stdbool.h>
#include <stdint.h>

enum { SOURCE_A = 0, SOURCE_B = 1, SOURCES = 2 };

enum {
    MOST_PARTITIONS = 16,
    MOST_MEMORY = 1024,
    MOST_ROWS = 4096,
    MOST_ENTRIES = 32,
    MOST_CLOCK = 16384,
    LISTS = SOURCES * MOST_PARTITIONS
};

enum {
    WORDS_A_ROW = 3,        /* key, ATS, DTS */
    WORDS_AN_ENTRY = 2,     /* DTS-last, ProbeTS */
    WORDS_A_LIST = WORDS_AN_ENTRY * MOST_ENTRIES,
    WORDS_A_PAIR = 3,       /* A row, B row, key */
    WORDS_A_LONE_ROW = 2    /* row, key */
};

typedef struct {
    uint32_t partitions;        /* P */
    uint32_t memory;            /* M */
    uint32_t most_rows;         /* N */
    uint32_t clock;
    uint32_t rows[SOURCES];
    bool closed[SOURCES];
    uint32_t entries[LISTS];    /* list sP + p; those from 2P on are no lists */
    uint32_t position;
    uint32_t lone_position[SOURCES];
} session_record;

/* A lap as a feed names it. Laps are counted from 0 again after a red flag, so
 * only together with the heat does a number name one lap of a car. */
typedef struct {
    uint32_t heat;
    uint32_t car;
    uint32_t lap;
} named_lap;

typedef struct {
    uint32_t *words;
    uint32_t length;
} sheet;

typedef struct {
    sheet rows[SOURCES];
    sheet probe;
    sheet output;
} lent_sheets;

typedef enum {
    OPENED,
    TAKEN,
    FLUSHED,
    RAN,
    SHUT,
    MORE,
    DONE,
    MORE_LONE,
    DONE_LONE,
    REFUSED
} answer_kind;

/* Numbers 1 to 8 of the table of refusals; 9 and 10 are the program's. */
typedef enum {
    NO_REFUSAL = 0,
    BAD_SHEET = 1,
    BAD_KEY,
    BAD_PART,
    CLOSED,
    SHEET_FULL,
    LIST_FULL,
    STILL_OPEN,
    ROOM_SHORT
} refusal;

typedef struct {
    answer_kind kind;
    uint32_t number;    /* pairs or rows; for REFUSED the number of the refusal */
    uint32_t needed;    /* for ROOM_SHORT only, else 0 */
} answer;

/* A refused opening hands back a record of zeros; every other refused call
 * leaves the record and all words as they were. */
answer box_open(session_record *record, const lent_sheets *sheets,
                uint32_t partitions, uint32_t memory, uint32_t most_rows);
answer box_arrive(session_record *record, const lent_sheets *sheets,
                  uint32_t source, named_lap named);
answer box_evict(session_record *record, const lent_sheets *sheets,
                 uint32_t source, uint32_t partition);
answer box_run(session_record *record, const lent_sheets *sheets,
               uint32_t source, uint32_t partition);
answer box_close(session_record *record, const lent_sheets *sheets, uint32_t source);
answer box_drain(session_record *record, const lent_sheets *sheets);
answer box_lone(session_record *record, const lent_sheets *sheets, uint32_t source);

#endif
