/* Prints every field of the statement of the interval file on standard input, or its refusal: what the program `tell` prints,
 * by the readers of wheatrudder.h. tools/try-library compares it with the outputs stored for `tell`.
 *
 * Built by hand: cc -Iinclude examples/fields.c target/native/libabi.a -o fields */
#include "wheatrudder.h"

#include <inttypes.h>
#include <stdio.h>

static void print_head(const uint8_t *s)
{
    printf("%" PRIu32 " %u %u %u", wheatrudder_statement_day(s), wheatrudder_statement_quarter(s),
           wheatrudder_statement_price1(s), wheatrudder_statement_price2(s));
    printf(" %" PRIu64 " %" PRIu64, wheatrudder_statement_total(s), wheatrudder_statement_shortfall(s));
    printf(" %u %" PRIu32 " %u", wheatrudder_statement_rounds(s), wheatrudder_statement_uncovered(s),
           wheatrudder_statement_rows(s));
    if (wheatrudder_statement_terms_stated(s)) {
        printf(" %u", wheatrudder_statement_percent(s));
        for (size_t k = 0; k < 4; k++)
            printf(" %u", wheatrudder_statement_limit(s, k));
    }
    printf(" %" PRIu32 " %u\n", wheatrudder_statement_visits(s), wheatrudder_statement_averaged(s));
}

static void print_line(const uint8_t *s, size_t i)
{
    printf("%u %" PRIu32 " %" PRIu32, wheatrudder_line_id(s, i), wheatrudder_line_called1(s, i), wheatrudder_line_called2(s, i));
    printf(" %" PRIu32 " %" PRIu32, wheatrudder_line_compensation(s, i), wheatrudder_line_cut(s, i));
    printf(" %" PRIu32 " %" PRIu32, wheatrudder_line_weight(s, i), wheatrudder_line_cap(s, i));
    printf(" %" PRIu32 " %u", wheatrudder_line_paid(s, i), wheatrudder_line_closing(s, i));
    printf(" %" PRIu32 " %" PRIu32 "\n", wheatrudder_line_penalty(s, i), wheatrudder_line_returned(s, i));
}

int main(void)
{
    /* A byte past the longest file: a longer one is refused all the same. */
    static uint8_t interval[WHEATRUDDER_INTERVAL_LENGTH_PG(WHEATRUDDER_MOST_ROWS) + 1];
    static uint8_t statement[WHEATRUDDER_STATEMENT_ROOM(WHEATRUDDER_MOST_ROWS)];
    size_t length = fread(interval, 1, sizeof interval, stdin);
    uint64_t answer = wheatrudder_settle(interval, length, NULL, 0, statement, sizeof statement);
    if (wheatrudder_number(answer) != 0) {
        printf("refused %" PRIu32 " %" PRIu32 "\n", wheatrudder_number(answer), wheatrudder_value(answer));
        return 0;
    }
    print_head(statement);
    for (size_t i = 0; i < wheatrudder_statement_rows(statement); i++)
        print_line(statement, i);
    return 0;
}
