#include "box.h"

#include <stddef.h>

/* Every test scans whole sheets: this program is to be read and believed, not
 * to be fast. */

typedef struct {
    uint32_t key;
    uint32_t ats;
    uint32_t dts;
} row;

typedef struct {
    uint32_t source;
    uint32_t partition;
} portion;

/* ---- answers ---- */

static answer answered(answer_kind kind, uint32_t number)
{
    return (answer){ .kind = kind, .number = number, .needed = 0 };
}

static answer refused(refusal why)
{
    return (answer){ .kind = REFUSED, .number = why, .needed = 0 };
}

static answer room_short(uint32_t needed)
{
    return (answer){ .kind = REFUSED, .number = ROOM_SHORT, .needed = needed };
}

/* ---- rows and portions ---- */

static uint32_t other(uint32_t source)
{
    return source == SOURCE_A ? SOURCE_B : SOURCE_A;
}

static row row_at(const lent_sheets *sheets, uint32_t source, uint32_t number)
{
    const uint32_t *words = sheets->rows[source].words + WORDS_A_ROW * number;
    return (row){ .key = words[0], .ats = words[1], .dts = words[2] };
}

static void store_row(const lent_sheets *sheets, uint32_t source, uint32_t number, row stored)
{
    uint32_t *words = sheets->rows[source].words + WORDS_A_ROW * number;
    words[0] = stored.key;
    words[1] = stored.ats;
    words[2] = stored.dts;
}

static bool in_memory(row tested)
{
    return tested.dts == 0;
}

static uint32_t partition_of(const session_record *record, row tested)
{
    return tested.key % record->partitions;
}

static uint32_t memory_rows_of(const session_record *record, const lent_sheets *sheets,
                               portion counted)
{
    uint32_t count = 0;
    for (uint32_t r = 0; r < record->rows[counted.source]; r++) {
        row seen = row_at(sheets, counted.source, r);
        if (in_memory(seen) && partition_of(record, seen) == counted.partition)
            count++;
    }
    return count;
}

static uint32_t memory_rows_of_source(const session_record *record, const lent_sheets *sheets,
                                      uint32_t source)
{
    uint32_t count = 0;
    for (uint32_t r = 0; r < record->rows[source]; r++)
        if (in_memory(row_at(sheets, source, r)))
            count++;
    return count;
}

static uint32_t memory_rows(const session_record *record, const lent_sheets *sheets)
{
    return memory_rows_of_source(record, sheets, SOURCE_A)
         + memory_rows_of_source(record, sheets, SOURCE_B);
}

/* Only a strictly larger portion replaces the one found before, so at a tie the
 * lower partition stays. */
static portion largest_portion(const session_record *record, const lent_sheets *sheets,
                               uint32_t source)
{
    portion largest = { source, 0 };
    for (uint32_t p = 0; p < record->partitions; p++) {
        portion tried = { source, p };
        if (memory_rows_of(record, sheets, tried) > memory_rows_of(record, sheets, largest))
            largest = tried;
    }
    return largest;
}

static uint32_t fuller_source(const session_record *record, const lent_sheets *sheets)
{
    uint32_t of_a = memory_rows_of_source(record, sheets, SOURCE_A);
    uint32_t of_b = memory_rows_of_source(record, sheets, SOURCE_B);
    return of_b > of_a ? SOURCE_B : SOURCE_A;
}

/* "From the source with more rows in memory, A at a tie, and within it from the
 * largest portion, lower partition at a tie." */
static portion next_victim(const session_record *record, const lent_sheets *sheets)
{
    return largest_portion(record, sheets, fuller_source(record, sheets));
}

/* Answers the rows flushed. */
static uint32_t flush(session_record *record, const lent_sheets *sheets, portion flushed)
{
    uint32_t count = 0;
    for (uint32_t r = 0; r < record->rows[flushed.source]; r++) {
        row seen = row_at(sheets, flushed.source, r);
        if (!in_memory(seen) || partition_of(record, seen) != flushed.partition)
            continue;
        record->clock++;
        seen.dts = record->clock;
        store_row(sheets, flushed.source, r, seen);
        count++;
    }
    return count;
}

/* ---- probe lists ---- */

static uint32_t list_of(const session_record *record, portion probed)
{
    return probed.source * record->partitions + probed.partition;
}

static uint32_t *entry_at(const lent_sheets *sheets, uint32_t list, uint32_t entry)
{
    return sheets->probe.words + WORDS_A_LIST * list + WORDS_AN_ENTRY * entry;
}

static void add_entry(session_record *record, const lent_sheets *sheets, uint32_t list,
                      uint32_t dts_last, uint32_t probe_ts)
{
    uint32_t *entry = entry_at(sheets, list, record->entries[list]);
    entry[0] = dts_last;
    entry[1] = probe_ts;
    record->entries[list]++;
}

/* ---- done before ---- */

static bool in_memory_together(row a, row b)
{
    return (b.dts == 0 || a.ats < b.dts) && (a.dts == 0 || b.ats < a.dts);
}

static bool in_memory_at(row tested, uint32_t probe_ts)
{
    return tested.ats <= probe_ts && (tested.dts == 0 || probe_ts < tested.dts);
}

/* Whether a run of the spooled row's portion has tried it against the probed
 * row. */
static bool used_by_run(const session_record *record, const lent_sheets *sheets,
                        uint32_t source, row spooled, row probed)
{
    if (spooled.dts == 0)
        return false;
    uint32_t list = list_of(record, (portion){ source, partition_of(record, spooled) });
    for (uint32_t e = 0; e < record->entries[list]; e++) {
        const uint32_t *entry = entry_at(sheets, list, e);
        if (spooled.dts <= entry[0] && in_memory_at(probed, entry[1]))
            return true;
    }
    return false;
}

static bool done_before(const session_record *record, const lent_sheets *sheets, row a, row b)
{
    return in_memory_together(a, b)
        || used_by_run(record, sheets, SOURCE_A, a, b)
        || used_by_run(record, sheets, SOURCE_B, b, a);
}

/* ---- output ---- */

static uint32_t room(const lent_sheets *sheets)
{
    return sheets->output.length / WORDS_A_PAIR;
}

static uint32_t lone_room(const lent_sheets *sheets)
{
    return sheets->output.length / WORDS_A_LONE_ROW;
}

/* The rows are named by source, since a call may look at B before A; the pair
 * written is always (A row, B row, key). */
static void write_pair(const lent_sheets *sheets, uint32_t pair, uint32_t source,
                       uint32_t own, uint32_t others, uint32_t key)
{
    uint32_t *words = sheets->output.words + WORDS_A_PAIR * pair;
    words[0] = source == SOURCE_A ? own : others;
    words[1] = source == SOURCE_A ? others : own;
    words[2] = key;
}

static void write_lone_row(const lent_sheets *sheets, uint32_t place, uint32_t number, uint32_t key)
{
    uint32_t *words = sheets->output.words + WORDS_A_LONE_ROW * place;
    words[0] = number;
    words[1] = key;
}

/* ---- checks ---- */

static bool out_of_range(uint32_t number, uint32_t least, uint32_t most)
{
    return number < least || number > most;
}

/* What an opening can test. The ranges come first: after them no product here
 * can overflow. */
static bool bad_shape(const lent_sheets *sheets,
                      uint32_t partitions, uint32_t memory, uint32_t most_rows)
{
    if (out_of_range(partitions, 1, MOST_PARTITIONS)
        || out_of_range(memory, 1, MOST_MEMORY)
        || out_of_range(most_rows, 1, MOST_ROWS))
        return true;
    return sheets->rows[SOURCE_A].length < WORDS_A_ROW * most_rows
        || sheets->rows[SOURCE_B].length < WORDS_A_ROW * most_rows
        || sheets->probe.length < SOURCES * WORDS_A_LIST * partitions;
}

static bool bad_sheet(const session_record *record, const lent_sheets *sheets)
{
    if (bad_shape(sheets, record->partitions, record->memory, record->most_rows))
        return true;
    if (record->rows[SOURCE_A] > record->most_rows
        || record->rows[SOURCE_B] > record->most_rows
        || record->clock > MOST_CLOCK)
        return true;
    for (uint32_t list = 0; list < SOURCES * record->partitions; list++)
        if (record->entries[list] > MOST_ENTRIES)
            return true;
    return record->position > record->rows[SOURCE_A] * record->rows[SOURCE_B]
        || record->lone_position[SOURCE_A] > record->rows[SOURCE_A]
        || record->lone_position[SOURCE_B] > record->rows[SOURCE_B];
}

static bool bad_key(named_lap named)
{
    return out_of_range(named.heat, 1, 9)
        || out_of_range(named.car, 1, 999)
        || out_of_range(named.lap, 0, 999);
}

static bool both_closed(const session_record *record)
{
    return record->closed[SOURCE_A] && record->closed[SOURCE_B];
}

/* The refusals that evict and run have in common. */
static refusal no_portion(const session_record *record, const lent_sheets *sheets,
                          uint32_t partition)
{
    if (bad_sheet(record, sheets))
        return BAD_SHEET;
    if (partition >= record->partitions)
        return BAD_PART;
    return both_closed(record) ? CLOSED : NO_REFUSAL;
}

/* The refusals that a drain and a lone call have in common, but for the room. */
static refusal not_ended(const session_record *record, const lent_sheets *sheets)
{
    if (bad_sheet(record, sheets))
        return BAD_SHEET;
    return both_closed(record) ? NO_REFUSAL : STILL_OPEN;
}

/* ---- open and close ---- */

answer box_open(session_record *record, const lent_sheets *sheets,
                uint32_t partitions, uint32_t memory, uint32_t most_rows)
{
    *record = (session_record){ .partitions = 0 };
    if (bad_shape(sheets, partitions, memory, most_rows))
        return refused(BAD_SHEET);
    record->partitions = partitions;
    record->memory = memory;
    record->most_rows = most_rows;
    return answered(OPENED, 0);
}

answer box_close(session_record *record, const lent_sheets *sheets, uint32_t source)
{
    if (bad_sheet(record, sheets))
        return refused(BAD_SHEET);
    if (record->closed[source])
        return refused(CLOSED);
    record->closed[source] = true;
    return answered(SHUT, 0);
}

/* ---- arrival ---- */

/* For a lap that is in range: different ones have different keys. */
static uint32_t key_of(named_lap named)
{
    return named.heat * 1000000 + named.car * 1000 + named.lap;
}

/* Collects the memory rows of a source that have the key, ascending, leaving
 * out those of the victim if there is one. */
static uint32_t partners(const session_record *record, const lent_sheets *sheets,
                         uint32_t source, uint32_t key, const portion *victim,
                         uint32_t found[MOST_ROWS])
{
    uint32_t count = 0;
    for (uint32_t r = 0; r < record->rows[source]; r++) {
        row seen = row_at(sheets, source, r);
        if (!in_memory(seen) || seen.key != key)
            continue;
        if (victim && victim->source == source
            && victim->partition == partition_of(record, seen))
            continue;
        found[count++] = r;
    }
    return count;
}

answer box_arrive(session_record *record, const lent_sheets *sheets,
                  uint32_t source, named_lap named)
{
    if (bad_sheet(record, sheets))
        return refused(BAD_SHEET);
    if (bad_key(named))
        return refused(BAD_KEY);
    if (record->closed[source])
        return refused(CLOSED);
    if (record->rows[source] == record->most_rows)
        return refused(SHEET_FULL);

    /* The pairs are those after the flush, but a refused arrival flushes
     * nothing: so they are found first, with the victim thought away. */
    uint32_t key = key_of(named);
    bool full = memory_rows(record, sheets) >= record->memory;
    portion victim = next_victim(record, sheets);
    uint32_t found[MOST_ROWS];
    uint32_t pairs = partners(record, sheets, other(source), key, full ? &victim : NULL, found);
    if (pairs > room(sheets))
        return room_short(pairs);

    if (full)
        flush(record, sheets, victim);
    record->clock++;
    row arrived = { .key = key, .ats = record->clock, .dts = 0 };
    uint32_t number = record->rows[source];
    store_row(sheets, source, number, arrived);
    record->rows[source]++;
    for (uint32_t pair = 0; pair < pairs; pair++)
        write_pair(sheets, pair, source, number, found[pair], key);
    return answered(TAKEN, pairs);
}

/* ---- evict ---- */

answer box_evict(session_record *record, const lent_sheets *sheets,
                 uint32_t source, uint32_t partition)
{
    refusal why = no_portion(record, sheets, partition);
    if (why != NO_REFUSAL)
        return refused(why);
    return answered(FLUSHED, flush(record, sheets, (portion){ source, partition }));
}

/* ---- run ---- */

/* The largest DTS in the portion, 0 if none of its rows is spooled. */
static uint32_t largest_dts(const session_record *record, const lent_sheets *sheets,
                            portion spooled)
{
    uint32_t largest = 0;
    for (uint32_t r = 0; r < record->rows[spooled.source]; r++) {
        row seen = row_at(sheets, spooled.source, r);
        if (partition_of(record, seen) == spooled.partition && seen.dts > largest)
            largest = seen.dts;
    }
    return largest;
}

static bool last_probe_at_clock(const session_record *record, const lent_sheets *sheets,
                                uint32_t list)
{
    uint32_t count = record->entries[list];
    return count > 0 && entry_at(sheets, list, count - 1)[1] == record->clock;
}

static bool run_finds(const session_record *record, const lent_sheets *sheets,
                      uint32_t source, row spooled, row probed)
{
    if (in_memory(spooled) || !in_memory(probed) || spooled.key != probed.key)
        return false;
    return source == SOURCE_A ? !done_before(record, sheets, spooled, probed)
                              : !done_before(record, sheets, probed, spooled);
}

/* Counts the pairs of a run, and writes them if asked to. */
static uint32_t run_pairs(const session_record *record, const lent_sheets *sheets,
                          portion run, bool writing)
{
    uint32_t pairs = 0;
    for (uint32_t own = 0; own < record->rows[run.source]; own++) {
        row spooled = row_at(sheets, run.source, own);
        if (partition_of(record, spooled) != run.partition)
            continue;
        for (uint32_t others = 0; others < record->rows[other(run.source)]; others++) {
            row probed = row_at(sheets, other(run.source), others);
            if (!run_finds(record, sheets, run.source, spooled, probed))
                continue;
            if (writing)
                write_pair(sheets, pairs, run.source, own, others, spooled.key);
            pairs++;
        }
    }
    return pairs;
}

answer box_run(session_record *record, const lent_sheets *sheets,
               uint32_t source, uint32_t partition)
{
    refusal why = no_portion(record, sheets, partition);
    if (why != NO_REFUSAL)
        return refused(why);

    portion run = { source, partition };
    uint32_t list = list_of(record, run);
    uint32_t dts_last = largest_dts(record, sheets, run);
    if (dts_last == 0 || last_probe_at_clock(record, sheets, list))
        return answered(RAN, 0);
    if (record->entries[list] == MOST_ENTRIES)
        return refused(LIST_FULL);
    uint32_t pairs = run_pairs(record, sheets, run, false);
    if (pairs > room(sheets))
        return room_short(pairs);

    run_pairs(record, sheets, run, true);
    add_entry(record, sheets, list, dts_last, record->clock);
    return answered(RAN, pairs);
}

/* ---- drain ---- */

/* The position of the first matching pair not done before, at or after a
 * position; (A rows) x (B rows) if there is none. */
static uint32_t next_left(const session_record *record, const lent_sheets *sheets, uint32_t from)
{
    uint32_t end = record->rows[SOURCE_A] * record->rows[SOURCE_B];
    for (uint32_t at = from; at < end; at++) {
        row a = row_at(sheets, SOURCE_A, at / record->rows[SOURCE_B]);
        row b = row_at(sheets, SOURCE_B, at % record->rows[SOURCE_B]);
        if (a.key == b.key && !done_before(record, sheets, a, b))
            return at;
    }
    return end;
}

answer box_drain(session_record *record, const lent_sheets *sheets)
{
    refusal why = not_ended(record, sheets);
    if (why != NO_REFUSAL)
        return refused(why);
    if (room(sheets) == 0)
        return room_short(1);

    uint32_t end = record->rows[SOURCE_A] * record->rows[SOURCE_B];
    uint32_t pairs = 0;
    uint32_t at = next_left(record, sheets, record->position);
    while (at < end && pairs < room(sheets)) {
        uint32_t a = at / record->rows[SOURCE_B];
        uint32_t b = at % record->rows[SOURCE_B];
        write_pair(sheets, pairs, SOURCE_A, a, b, row_at(sheets, SOURCE_A, a).key);
        pairs++;
        record->position = at + 1;
        at = next_left(record, sheets, at + 1);
    }
    if (at < end)
        return answered(MORE, pairs);
    record->position = end;
    return answered(DONE, pairs);
}

/* ---- lone rows ---- */

/* Whether the other source has a row with this key, in memory or spooled. */
static bool has_partner(const session_record *record, const lent_sheets *sheets,
                        uint32_t source, uint32_t key)
{
    for (uint32_t r = 0; r < record->rows[other(source)]; r++) {
        row seen = row_at(sheets, other(source), r);
        if (seen.key == key)
            return true;
    }
    return false;
}

/* The first row without a partner, at or after a row; the row count if there
 * is none. */
static uint32_t next_lone(const session_record *record, const lent_sheets *sheets,
                          uint32_t source, uint32_t from)
{
    for (uint32_t r = from; r < record->rows[source]; r++)
        if (!has_partner(record, sheets, source, row_at(sheets, source, r).key))
            return r;
    return record->rows[source];
}

answer box_lone(session_record *record, const lent_sheets *sheets, uint32_t source)
{
    refusal why = not_ended(record, sheets);
    if (why != NO_REFUSAL)
        return refused(why);
    if (lone_room(sheets) == 0)
        return room_short(1);

    uint32_t end = record->rows[source];
    uint32_t written = 0;
    uint32_t at = next_lone(record, sheets, source, record->lone_position[source]);
    while (at < end && written < lone_room(sheets)) {
        write_lone_row(sheets, written, at, row_at(sheets, source, at).key);
        written++;
        record->lone_position[source] = at + 1;
        at = next_lone(record, sheets, source, at + 1);
    }
    if (at < end)
        return answered(MORE_LONE, written);
    record->lone_position[source] = end;
    return answered(DONE_LONE, written);
}
