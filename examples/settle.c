/* Settles an interval file, with a correction if one is named, and prints what each row owes and gets, in fen.
 *
 *   settle INTERVAL [CORRECTION]
 *
 * Built by tools/try-library; by hand: cc -Iinclude examples/settle.c target/native/libabi.a -o settle */
#include "wheatrudder.h"

#include <inttypes.h>
#include <stdio.h>

/* A byte past the longest file: a longer one is refused all the same. */
#define MOST_BYTES (WHEATRUDDER_INTERVAL_LENGTH_PG(WHEATRUDDER_MOST_ROWS) + 1)

/* How many bytes the file has, cut at MOST_BYTES; -1 if it cannot be read. */
static long read_file(const char *name, uint8_t *bytes)
{
    FILE *file = fopen(name, "rb");
    if (!file)
        return -1;
    size_t length = fread(bytes, 1, MOST_BYTES, file);
    int failed = ferror(file);
    fclose(file);
    return failed ? -1 : (long)length;
}

/* What a row pays, and its penalty. */
static uint32_t owed_by(const uint8_t *statement, size_t i)
{
    return wheatrudder_line_paid(statement, i) + wheatrudder_line_penalty(statement, i);
}

/* What the cut leaves of its compensation, and what comes back of its penalty. */
static uint32_t due_to(const uint8_t *statement, size_t i)
{
    return wheatrudder_line_compensation(statement, i) - wheatrudder_line_cut(statement, i) +
           wheatrudder_line_returned(statement, i);
}

/* The terms of a PG file; a PH file has those of document 01 and says nothing. */
static void print_terms(const uint8_t *statement)
{
    if (!wheatrudder_statement_terms_stated(statement))
        return;
    printf("baseline %u percent, bids %u to %u and %u to %u li\n", wheatrudder_statement_percent(statement),
           wheatrudder_statement_limit(statement, 0), wheatrudder_statement_limit(statement, 1),
           wheatrudder_statement_limit(statement, 2), wheatrudder_statement_limit(statement, 3));
}

static void print_statement(const uint8_t *statement)
{
    print_terms(statement);
    if (wheatrudder_statement_averaged(statement))
        printf("no wind and everybody low: the thermal average rules in the baseline's place\n");
    printf("total %" PRIu64 " fen, %" PRIu64 " of it not covered by payers, %u rounds\n",
           wheatrudder_statement_total(statement), wheatrudder_statement_shortfall(statement),
           wheatrudder_statement_rounds(statement));
    for (size_t i = 0; i < wheatrudder_statement_rows(statement); i++)
        printf("row %u owes %" PRIu32 ", gets %" PRIu32 "\n", wheatrudder_line_id(statement, i),
               owed_by(statement, i), due_to(statement, i));
}

int main(int count, char **words)
{
    static uint8_t interval[MOST_BYTES], correction[MOST_BYTES];
    static uint8_t statement[WHEATRUDDER_STATEMENT_ROOM(WHEATRUDDER_MOST_ROWS)];
    if (count != 2 && count != 3) {
        fprintf(stderr, "usage: settle INTERVAL [CORRECTION]\n");
        return 2;
    }
    long length = read_file(words[1], interval);
    long corrected = count == 3 ? read_file(words[2], correction) : 0;
    if (length < 0 || corrected < 0) {
        fprintf(stderr, "settle: cannot read %s\n", words[length < 0 ? 1 : 2]);
        return 2;
    }
    uint64_t answer =
        wheatrudder_settle(interval, (size_t)length, correction, (size_t)corrected, statement, sizeof statement);
    if (wheatrudder_number(answer) != 0) {
        printf("refused %" PRIu32 " %" PRIu32 "\n", wheatrudder_number(answer), wheatrudder_value(answer));
        return 1;
    }
    print_statement(statement);
    return 0;
}
