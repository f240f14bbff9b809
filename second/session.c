/* The session program: lines on standard input, answers on standard output. */
#include <stdio.h>
#include <string.h>

#include "box.h"

enum {
    SHEET_ROWS = 1024,
    OUTPUT_ROOM = 512,
    MOST_BYTES = 80,
    MOST_FIELDS = 4,
    MOST_DIGITS = 4
};

/* The two refusals that are the program's own. */
enum { BAD_LINE = 9, NO_START = 10 };

static uint32_t row_words[SOURCES][WORDS_A_ROW * SHEET_ROWS];
static uint32_t probe_words[WORDS_A_LIST * LISTS];
static uint32_t output_words[WORDS_A_PAIR * OUTPUT_ROOM];

static lent_sheets sheets_with_output(uint32_t words)
{
    return (lent_sheets){
        .rows = { { row_words[SOURCE_A], WORDS_A_ROW * SHEET_ROWS },
                  { row_words[SOURCE_B], WORDS_A_ROW * SHEET_ROWS } },
        .probe = { probe_words, WORDS_A_LIST * LISTS },
        .output = { output_words, words }
    };
}

/* ---- lines and fields ---- */

typedef struct {
    char bytes[MOST_BYTES];
    size_t length;
    bool too_long;
} input_line;

/* A part of the line; the bytes are the line's own. */
typedef struct {
    const char *start;
    size_t length;
} field;

/* False at the end of input; an empty rest gives no line. */
static bool read_line(input_line *line)
{
    line->length = 0;
    line->too_long = false;
    int byte = getchar();
    if (byte == EOF)
        return false;
    for (; byte != EOF && byte != '\n'; byte = getchar()) {
        if (line->length == MOST_BYTES)
            line->too_long = true;
        else
            line->bytes[line->length++] = (char)byte;
    }
    return true;
}

static bool is_blank(char byte)
{
    return byte == ' ' || byte == '\t';
}

static field cut_blanks(field whole)
{
    while (whole.length > 0 && is_blank(whole.start[0])) {
        whole.start++;
        whole.length--;
    }
    while (whole.length > 0 && is_blank(whole.start[whole.length - 1]))
        whole.length--;
    return whole;
}

/* Answers how many fields the line has; keeps the first MOST_FIELDS. */
static size_t split_fields(const input_line *line, field fields[MOST_FIELDS])
{
    size_t count = 0;
    size_t start = 0;
    for (size_t at = 0; at <= line->length; at++) {
        if (at < line->length && line->bytes[at] != ',')
            continue;
        if (count < MOST_FIELDS)
            fields[count] = cut_blanks((field){ line->bytes + start, at - start });
        count++;
        start = at + 1;
    }
    return count;
}

static bool is_word(field tested, const char *word)
{
    return tested.length == strlen(word) && memcmp(tested.start, word, tested.length) == 0;
}

static bool read_number(field digits, uint32_t *number)
{
    if (digits.length < 1 || digits.length > MOST_DIGITS)
        return false;
    *number = 0;
    for (size_t at = 0; at < digits.length; at++) {
        if (digits.start[at] < '0' || digits.start[at] > '9')
            return false;
        *number = *number * 10 + (uint32_t)(digits.start[at] - '0');
    }
    return true;
}

static bool read_source(field letter, uint32_t *source)
{
    *source = is_word(letter, "B") ? SOURCE_B : SOURCE_A;
    return is_word(letter, "A") || is_word(letter, "B");
}

/* ---- commands ---- */

typedef enum { START, ARRIVE, EVICT, RUN, CLOSE, DRAIN, LONE } command_kind;

typedef struct {
    command_kind kind;
    uint32_t source;
    uint32_t numbers[3];
} command;

static bool read_numbers(const field *fields, size_t count, uint32_t *numbers)
{
    for (size_t i = 0; i < count; i++)
        if (!read_number(fields[i], &numbers[i]))
            return false;
    return true;
}

static bool read_start(const field *fields, size_t count, command *read)
{
    read->kind = START;
    return count == 4 && read_numbers(fields + 1, 3, read->numbers);
}

static bool read_arrival(const field *fields, size_t count, command *read)
{
    read->kind = ARRIVE;
    return count == 4 && read_source(fields[0], &read->source)
        && read_numbers(fields + 1, 3, read->numbers);
}

static bool read_portion(const field *fields, size_t count, command_kind kind, command *read)
{
    read->kind = kind;
    return count == 3 && read_source(fields[1], &read->source)
        && read_number(fields[2], &read->numbers[0]);
}

static bool read_close(const field *fields, size_t count, command *read)
{
    read->kind = CLOSE;
    return count == 2 && read_source(fields[1], &read->source);
}

static bool read_room(field digits, uint32_t *room)
{
    return read_number(digits, room) && *room <= OUTPUT_ROOM;
}

static bool read_drain(const field *fields, size_t count, command *read)
{
    read->kind = DRAIN;
    return count == 2 && read_room(fields[1], &read->numbers[0]);
}

static bool read_lone(const field *fields, size_t count, command *read)
{
    read->kind = LONE;
    return count == 3 && read_source(fields[1], &read->source)
        && read_room(fields[2], &read->numbers[0]);
}

/* False for a line that can't be read. */
static bool read_command(const input_line *line, command *read)
{
    if (line->too_long)
        return false;
    field fields[MOST_FIELDS];
    size_t count = split_fields(line, fields);
    if (is_word(fields[0], "START"))
        return read_start(fields, count, read);
    if (is_word(fields[0], "A") || is_word(fields[0], "B"))
        return read_arrival(fields, count, read);
    if (is_word(fields[0], "EVICT"))
        return read_portion(fields, count, EVICT, read);
    if (is_word(fields[0], "RUN"))
        return read_portion(fields, count, RUN, read);
    if (is_word(fields[0], "CLOSE"))
        return read_close(fields, count, read);
    if (is_word(fields[0], "DRAIN"))
        return read_drain(fields, count, read);
    if (is_word(fields[0], "LONE"))
        return read_lone(fields, count, read);
    return false;
}

/* ---- answering ---- */

static void print_pairs(uint32_t pairs)
{
    for (uint32_t pair = 0; pair < pairs; pair++) {
        const uint32_t *words = output_words + WORDS_A_PAIR * pair;
        printf("PAIR %u %u %u\n", (unsigned)words[0], (unsigned)words[1], (unsigned)words[2]);
    }
}

static void print_lone_rows(uint32_t rows)
{
    for (uint32_t place = 0; place < rows; place++) {
        const uint32_t *words = output_words + WORDS_A_LONE_ROW * place;
        printf("LONE %u %u\n", (unsigned)words[0], (unsigned)words[1]);
    }
}

static void print_answer(answer given)
{
    bool done = given.kind == DONE || given.kind == DONE_LONE;
    if (given.kind == TAKEN || given.kind == RAN || given.kind == MORE || given.kind == DONE)
        print_pairs(given.number);
    if (given.kind == MORE_LONE || given.kind == DONE_LONE)
        print_lone_rows(given.number);
    if (given.kind == REFUSED && given.number == ROOM_SHORT)
        printf("NO %u %u\n", (unsigned)given.number, (unsigned)given.needed);
    else if (given.kind == REFUSED)
        printf("NO %u\n", (unsigned)given.number);
    else
        printf("%s %u\n", done ? "DONE" : "OK", (unsigned)given.number);
}

/* A refused opening hands back zeros; the old session is kept instead. */
static answer start(session_record *record, bool *started, const command *asked)
{
    lent_sheets sheets = sheets_with_output(WORDS_A_PAIR * OUTPUT_ROOM);
    session_record opened;
    answer given = box_open(&opened, &sheets,
                            asked->numbers[0], asked->numbers[1], asked->numbers[2]);
    if (given.kind == OPENED) {
        *record = opened;
        *started = true;
    }
    return given;
}

/* A drain and a lone call have the room that their line names. */
static uint32_t output_length(const command *asked)
{
    if (asked->kind == DRAIN)
        return WORDS_A_PAIR * asked->numbers[0];
    if (asked->kind == LONE)
        return WORDS_A_LONE_ROW * asked->numbers[0];
    return WORDS_A_PAIR * OUTPUT_ROOM;
}

static answer perform(session_record *record, const command *asked)
{
    lent_sheets sheets = sheets_with_output(output_length(asked));
    const uint32_t *numbers = asked->numbers;
    switch (asked->kind) {
    case ARRIVE:
        return box_arrive(record, &sheets, asked->source,
                          (named_lap){ numbers[0], numbers[1], numbers[2] });
    case EVICT:
        return box_evict(record, &sheets, asked->source, numbers[0]);
    case RUN:
        return box_run(record, &sheets, asked->source, numbers[0]);
    case CLOSE:
        return box_close(record, &sheets, asked->source);
    case DRAIN:
        return box_drain(record, &sheets);
    default: /* LONE; START never comes here */
        return box_lone(record, &sheets, asked->source);
    }
}

int main(void)
{
    session_record record = { .partitions = 0 };
    bool started = false;
    input_line line;
    while (read_line(&line)) {
        command asked;
        if (!read_command(&line, &asked))
            printf("NO %d\n", BAD_LINE);
        else if (asked.kind == START)
            print_answer(start(&record, &started, &asked));
        else if (!started)
            printf("NO %d\n", NO_START);
        else
            print_answer(perform(&record, &asked));
    }
    return 0;
}
