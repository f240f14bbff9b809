/* The call program: each line of standard input is one case, a call with a
 * record and sheets, all as numbers; it performs the call and prints the
 * answer, the record and every word. A line that is no case prints BAD. A line
 * ends at LF or at the end of input, an empty rest giving no line.
 *
 * A case is: the kind of the call and its four arguments; the record, as P, M,
 * N, clock, rows of A and B, closed A and B, 32 entry counts, position, lone
 * positions of A and B; the lengths of the sheets A, B, probe and output; the
 * words of these sheets. The numbers are decimal, of 32 bits; spaces and tabs
 * part them.
 *
 * The arguments are P, M, N for an opening; source, heat, car, lap for an
 * arrival; source, partition for an eviction or a run; source for a close or a
 * lone call; none for a drain. The rest of the four can be any numbers. */
#include <stdio.h>
#include <stdlib.h>

#include "box.h"

enum {
    MOST_ROW_WORDS = WORDS_A_ROW * MOST_ROWS,
    MOST_PROBE_WORDS = WORDS_A_LIST * LISTS,
    MOST_OUTPUT_WORDS = WORDS_A_PAIR * 512,
    ARGUMENTS = 4,
    SHEETS = 4
};

typedef enum { OPEN, ARRIVE, EVICT, RUN, CLOSE, DRAIN, LONE } call_kind;

typedef struct {
    uint32_t kind;
    uint32_t arguments[ARGUMENTS];
    session_record record;
    lent_sheets sheets;
} call;

/* ---- reading ---- */

static int peek_byte(void)
{
    int byte = getchar();
    if (byte != EOF)
        ungetc(byte, stdin);
    return byte;
}

static bool is_blank(int byte)
{
    return byte == ' ' || byte == '\t';
}

static bool is_end(int byte)
{
    return byte == EOF || byte == '\n';
}

static bool at_line_end(void)
{
    while (is_blank(peek_byte()))
        getchar();
    return is_end(peek_byte());
}

static void skip_line(void)
{
    while (!is_end(getchar()))
        continue;
}

/* False at the end of the line and for a token that is not a 32-bit number. */
static bool read_number(uint32_t *number)
{
    if (at_line_end())
        return false;
    uint64_t value = 0;
    int byte = peek_byte();
    for (; !is_blank(byte) && !is_end(byte); byte = peek_byte()) {
        if (byte < '0' || byte > '9' || value > UINT32_MAX)
            return false;
        value = value * 10 + (uint64_t)(getchar() - '0');
    }
    *number = (uint32_t)value;
    return value <= UINT32_MAX;
}

static bool read_numbers(uint32_t *numbers, uint32_t count)
{
    for (uint32_t i = 0; i < count; i++)
        if (!read_number(&numbers[i]))
            return false;
    return true;
}

static bool read_up_to(uint32_t *number, uint32_t most)
{
    return read_number(number) && *number <= most;
}

static bool read_flag(bool *flag)
{
    uint32_t number;
    if (!read_up_to(&number, 1))
        return false;
    *flag = number == 1;
    return true;
}

static bool names_source(uint32_t kind)
{
    return kind != OPEN && kind != DRAIN;
}

static bool read_call_itself(call *asked)
{
    if (!read_up_to(&asked->kind, LONE) || !read_numbers(asked->arguments, ARGUMENTS))
        return false;
    return !names_source(asked->kind) || asked->arguments[0] <= SOURCE_B;
}

static bool read_record(session_record *record)
{
    return read_number(&record->partitions)
        && read_number(&record->memory)
        && read_number(&record->most_rows)
        && read_number(&record->clock)
        && read_numbers(record->rows, SOURCES)
        && read_flag(&record->closed[SOURCE_A])
        && read_flag(&record->closed[SOURCE_B])
        && read_numbers(record->entries, LISTS)
        && read_number(&record->position)
        && read_numbers(record->lone_position, SOURCES);
}

/* Each sheet gets exactly the words it has, so that a checking build sees any
 * step beyond them. */
static bool read_sheets(lent_sheets *sheets)
{
    sheet *order[SHEETS] = { &sheets->rows[SOURCE_A], &sheets->rows[SOURCE_B],
                             &sheets->probe, &sheets->output };
    const uint32_t most[SHEETS] = { MOST_ROW_WORDS, MOST_ROW_WORDS,
                                    MOST_PROBE_WORDS, MOST_OUTPUT_WORDS };
    for (int i = 0; i < SHEETS; i++)
        if (!read_up_to(&order[i]->length, most[i]))
            return false;
    for (int i = 0; i < SHEETS; i++) {
        order[i]->words = calloc(order[i]->length, sizeof(uint32_t));
        if (order[i]->length > 0 && !order[i]->words)
            abort();
        if (!read_numbers(order[i]->words, order[i]->length))
            return false;
    }
    return true;
}

static bool read_case(call *asked)
{
    return read_call_itself(asked) && read_record(&asked->record)
        && read_sheets(&asked->sheets) && at_line_end();
}

static void free_sheets(lent_sheets *sheets)
{
    free(sheets->rows[SOURCE_A].words);
    free(sheets->rows[SOURCE_B].words);
    free(sheets->probe.words);
    free(sheets->output.words);
}

/* ---- the call ---- */

static answer perform(call *asked)
{
    const uint32_t *arguments = asked->arguments;
    session_record *record = &asked->record;
    switch (asked->kind) {
    case OPEN:
        return box_open(record, &asked->sheets, arguments[0], arguments[1], arguments[2]);
    case ARRIVE:
        return box_arrive(record, &asked->sheets, arguments[0],
                          (named_lap){ arguments[1], arguments[2], arguments[3] });
    case EVICT:
        return box_evict(record, &asked->sheets, arguments[0], arguments[1]);
    case RUN:
        return box_run(record, &asked->sheets, arguments[0], arguments[1]);
    case CLOSE:
        return box_close(record, &asked->sheets, arguments[0]);
    case DRAIN:
        return box_drain(record, &asked->sheets);
    default: /* LONE */
        return box_lone(record, &asked->sheets, arguments[0]);
    }
}

/* ---- printing ---- */

static void print_answer(answer given)
{
    printf("ANSWER %u %u", (unsigned)given.kind, (unsigned)given.number);
    if (given.kind == REFUSED && given.number == ROOM_SHORT)
        printf(" %u", (unsigned)given.needed);
    printf("\n");
}

static void print_numbers(const uint32_t *numbers, uint32_t count)
{
    for (uint32_t i = 0; i < count; i++)
        printf(" %u", (unsigned)numbers[i]);
}

static void print_record(const session_record *record)
{
    printf("SESSION %u %u %u %u %u %u %d %d",
           (unsigned)record->partitions, (unsigned)record->memory,
           (unsigned)record->most_rows, (unsigned)record->clock,
           (unsigned)record->rows[SOURCE_A], (unsigned)record->rows[SOURCE_B],
           record->closed[SOURCE_A], record->closed[SOURCE_B]);
    print_numbers(record->entries, LISTS);
    printf(" %u", (unsigned)record->position);
    print_numbers(record->lone_position, SOURCES);
    printf("\n");
}

static void print_sheet(const char *name, const sheet *printed)
{
    printf("%s", name);
    print_numbers(printed->words, printed->length);
    printf("\n");
}

static void print_call(const call *performed, answer given)
{
    print_answer(given);
    print_record(&performed->record);
    print_sheet("A", &performed->sheets.rows[SOURCE_A]);
    print_sheet("B", &performed->sheets.rows[SOURCE_B]);
    print_sheet("PROBE", &performed->sheets.probe);
    print_sheet("OUT", &performed->sheets.output);
}

static void answer_line(void)
{
    call asked = { .kind = OPEN };
    if (read_case(&asked)) {
        answer given = perform(&asked);
        print_call(&asked, given);
    } else {
        printf("BAD\n");
    }
    free_sheets(&asked.sheets);
    skip_line();
}

int main(void)
{
    while (peek_byte() != EOF)
        answer_line();
    return 0;
}
