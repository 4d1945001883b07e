/* Calls at the edges that only C can make: null pointers with length 0, and lengths that are none or too small. */
#include "wheatrudder.h"

#include <stdio.h>
#include <string.h>

static int failures;

static void expect(const char *what, uint64_t answer, uint32_t number, uint32_t value)
{
    if (wheatrudder_number(answer) == number && wheatrudder_value(answer) == value)
        return;
    printf("%s: %u %u, not %u %u\n", what, wheatrudder_number(answer), wheatrudder_value(answer), number, value);
    failures++;
}

static uint8_t before[64];

static void expect_same(const char *what, const uint8_t *bytes, const uint8_t *due, size_t length)
{
    if (memcmp(bytes, due, length) == 0)
        return;
    printf("%s\n", what);
    failures++;
}

/* Calls on a file without rows, whose head and whose statement's head have so many bytes. */
static void try_form(const uint8_t *empty, size_t length, size_t head)
{
    uint8_t buffer[sizeof before];
    memcpy(buffer, before, sizeof buffer);
    expect("no buffer", wheatrudder_settle(empty, length, NULL, 0, NULL, 0), 11, 0);
    expect("a byte short", wheatrudder_settle(empty, length, NULL, 0, buffer, head - 1), 11, 0);
    expect("a head a byte short", wheatrudder_settle(empty, length - 1, NULL, 0, buffer, head), 1, 0);
    expect("a correction of one byte", wheatrudder_settle(empty, length, empty, 1, buffer, head), 8, 0);
    expect("no row, no buffer", wheatrudder_row(empty, length, NULL, 0, 1, NULL, 0), 0, 0);
    expect("no room to rewrite", wheatrudder_rewrite(empty, length, NULL, 0), 11, 0);
    expect("a byte short to rewrite", wheatrudder_rewrite(empty, length, buffer, length - 1), 11, 0);
    expect_same("a refusal changed the buffer", buffer, before, sizeof buffer);
    expect("no rows", wheatrudder_settle(empty, length, NULL, 0, buffer, sizeof buffer), 0, (uint32_t)head);
    expect_same("bytes past the statement changed", buffer + head, before + head, sizeof buffer - head);
    if (wheatrudder_statement_head_length(buffer) != head || wheatrudder_line(buffer, 0) != buffer + head) {
        printf("a head of another length\n");
        failures++;
    }
    expect("rewritten", wheatrudder_rewrite(empty, length, buffer, length), 0, (uint32_t)length);
    expect_same("rewritten to other bytes", buffer, empty, length);
}

/* The terms that the readers find in the statement of a file without rows. */
static void expect_terms(const uint8_t *empty, size_t length, int stated, unsigned percent, const uint16_t *limits)
{
    uint8_t statement[WHEATRUDDER_STATEMENT_ROOM(0)];
    int same = wheatrudder_number(wheatrudder_settle(empty, length, NULL, 0, statement, sizeof statement)) == 0 &&
               wheatrudder_statement_terms_stated(statement) == stated && wheatrudder_statement_percent(statement) == percent;
    for (size_t k = 0; k < 4; k++)
        same = same && wheatrudder_statement_limit(statement, k) == limits[k];
    if (!same) {
        printf("other terms than those of the file\n");
        failures++;
    }
}

/* Whether the thermal average rules the one row of a file, a thermal unit of 1 MW, with such a need and meter reading. */
static void expect_averaged(const uint8_t *empty, size_t length, uint8_t need, uint8_t metered, unsigned averaged)
{
    static const uint8_t unit[WHEATRUDDER_ROW_LENGTH] = {'P', 'R', 1, 0, 1, 1};
    uint8_t interval[WHEATRUDDER_INTERVAL_LENGTH_PG(1)], statement[WHEATRUDDER_STATEMENT_ROOM(1)];
    memcpy(interval, empty, length);
    memcpy(interval + length, unit, sizeof unit);
    interval[9] = need;
    interval[13] = 1;
    interval[length + 7] = metered;
    length += sizeof unit;
    if (wheatrudder_number(wheatrudder_settle(interval, length, NULL, 0, statement, sizeof statement)) == 0 &&
        wheatrudder_statement_averaged(statement) == averaged && wheatrudder_line_id(statement, 0) == 1)
        return;
    printf("need %u, metered %u: averaged is not %u\n", need, metered, averaged);
    failures++;
}

int main(void)
{
    /* No rows: mark, day 0, quarter 0, tariff 1300, need 0, count 0; then, in PG, 45 percent and limits 1, 256, 256, 1000. */
    static const uint8_t plain[WHEATRUDDER_INTERVAL_LENGTH_PH(0)] = {'P', 'H', 0, 0, 0, 0, 0, 0x14, 0x05};
    static const uint8_t stated[WHEATRUDDER_INTERVAL_LENGTH_PG(0)] = {
        'P', 'G', 0, 0, 0, 0, 0, 0x14, 0x05, 0, 0, 0, 0, 0, 0, 45, 1, 0, 0, 1, 0, 1, 0xE8, 0x03};
    static const uint16_t of_01[4] = {100, 320, 320, 750}, limits[4] = {1, 256, 256, 1000};
    uint8_t wrong[sizeof stated], buffer[sizeof before];
    memset(before, 0xA5, sizeof before);

    expect("nothing at all", wheatrudder_settle(NULL, 0, NULL, 0, NULL, 0), 1, 0);
    expect("no interval", wheatrudder_settle(NULL, 0, NULL, 0, buffer, sizeof buffer), 1, 0);
    expect("no files", wheatrudder_row(NULL, 0, NULL, 0, 1, NULL, 0), 0, 0);
    expect("nothing to rewrite", wheatrudder_rewrite(NULL, 0, NULL, 0), 1, 0);
    try_form(plain, sizeof plain, WHEATRUDDER_STATEMENT_LENGTH_PS(0));
    try_form(stated, sizeof stated, WHEATRUDDER_STATEMENT_LENGTH_PT(0));
    expect_terms(plain, sizeof plain, 0, 50, of_01);
    expect_terms(stated, sizeof stated, 1, 45, limits);
    /* The baseline of 1 MW is 125 kWh, and 112 at 45 percent. */
    expect_averaged(plain, sizeof plain, 1, 125, 1);
    expect_averaged(plain, sizeof plain, 1, 126, 0);
    expect_averaged(plain, sizeof plain, 0, 125, 0);
    expect_averaged(stated, sizeof stated, 1, 112, 1);
    expect_averaged(stated, sizeof stated, 1, 113, 0);
    expect_averaged(stated, sizeof stated, 0, 112, 0);
    memcpy(wrong, stated, sizeof wrong);
    wrong[15] = 40;
    expect("40 percent", wheatrudder_settle(wrong, sizeof wrong, NULL, 0, NULL, 0), 14, 0);
    expect("40 percent to rewrite", wheatrudder_rewrite(wrong, sizeof wrong, NULL, 0), 14, 0);
    printf("edges: %d wrong\n", failures);
    return failures != 0;
}
