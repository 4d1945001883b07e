/* Wheatrudder: one quarter hour of the market settled from an interval file.
 *
 * Every function answers one word, number x 2^32 + value:
 *   number 0    done; the value is how many bytes were written from the front of the buffer
 *   number 1..  a refusal by that number (1 to 11, and 14); the value is its place, a row counted from 1, or 0
 * A refusal changes no byte of the buffer. A success changes none past the bytes that it counts.
 *
 * Any bytes of any length are answered. Every function is thread-safe: nothing is kept between calls, no memory is allocated,
 * no file and no clock is used. A call takes at most 12,288 bytes of stack, and of the C library memcpy and memset alone
 * (docs/GATEWAY.md). A pointer may be null where its length is 0; otherwise it has to point to that many bytes, and the bytes of
 * the buffer must not overlap those of the files. A length is below 2^63.
 *
 * Files are a head and at most 256 rows or lines. Numbers are little-endian; widths in bytes stand in brackets.
 *
 *   interval head PH  15   "PH", day [4], quarter [1], tariff [2], need [4], rows [2]
 *   interval head PG  24   "PG", the fields of PH, baseline percent [1], four bid limits [2 each]: tier 1 lowest, tier 1 highest,
 *                          tier 2 lowest, tier 2 highest
 *   correction head    9   "PK", day [4], quarter [1], rows [2]; a correction of length 0 stands for none
 *   row               21   "PR", id [2], kind [1], capacity [2], metered [4], status [1], offered [1], minimum [4],
 *                          tier 1 bid [2], tier 2 bid [2]
 *   statement head PS 40   "PS", day [4], quarter [1], tier 1 price [2], tier 2 price [2], total [8], shortfall [8], rounds [2],
 *                          uncovered [4], rows [2], visits [4], averaged [1]
 *   statement head PT 49   "PT", the fields of PS up to rows, percent [1] and limits [2 each] as in PG, visits [4], averaged [1]
 *   line              42   "PL", id [2], called in tier 1 [4], called in tier 2 [4], compensation [4], cut [4], weight [4],
 *                          cap [4], paid [4], closing round [2], penalty [4], returned [4]
 *
 * A PG file states its terms: the baseline in percent of full load, 41 to 50, and the limits of the bids, 1 <= l1 < l2 <= l3 < l4
 * <= 1000. A PH file has the terms of document 01: 50 percent; 100, 320, 320, 750. A correction is held to the terms of its
 * interval. The statement of a PH file is PS, that of a PG file PT.
 *
 * A quarter is averaged (1, else 0) where the thermal average rules in the baseline's place: there is a need and a thermal row, every
 * wind and solar meter is 0, and every thermal row is at or below its baseline. The average of a row of capacity c is c x E / C, cut
 * to whole kWh, with E and C what all thermal rows metered and their capacity, of any status. Bands are called from the baseline.
 */
#ifndef WHEATRUDDER_H
#define WHEATRUDDER_H

#include <stddef.h>
#include <stdint.h>

#ifdef __cplusplus
extern "C" {
#endif

#define WHEATRUDDER_MOST_ROWS 256
#define WHEATRUDDER_ROW_LENGTH 21
#define WHEATRUDDER_LINE_LENGTH 42
#define WHEATRUDDER_INTERVAL_LENGTH_PH(rows) (15 + WHEATRUDDER_ROW_LENGTH * (size_t)(rows))
#define WHEATRUDDER_INTERVAL_LENGTH_PG(rows) (24 + WHEATRUDDER_ROW_LENGTH * (size_t)(rows))
#define WHEATRUDDER_CORRECTION_LENGTH(rows) (9 + WHEATRUDDER_ROW_LENGTH * (size_t)(rows))
#define WHEATRUDDER_STATEMENT_LENGTH_PS(rows) (40 + WHEATRUDDER_LINE_LENGTH * (size_t)(rows))
#define WHEATRUDDER_STATEMENT_LENGTH_PT(rows) (49 + WHEATRUDDER_LINE_LENGTH * (size_t)(rows))
/* Enough for a statement of either form. */
#define WHEATRUDDER_STATEMENT_ROOM(rows) WHEATRUDDER_STATEMENT_LENGTH_PT(rows)

/* The two halves of an answer. */
static inline uint32_t wheatrudder_number(uint64_t answer) { return (uint32_t)(answer >> 32); }
static inline uint32_t wheatrudder_value(uint64_t answer) { return (uint32_t)answer; }

/* Settles an interval file with its correction into a statement. Refusals 1 to 11, and 14; in the order in which they are checked:
 *    1  an interval file shorter than 15 bytes
 *    2  its mark is neither PH nor PG
 *    1  a PG file shorter than 24 bytes
 *    3  a field of its head out of range, of those that PH has
 *   14  the terms of a PG file out of range or not rising
 *    4  its length is not that of its form and count of rows
 *    5  a row's mark is wrong; 6 a field of it out of range under the file's terms; 7 its id not above the one before: row by row
 *    8  the correction's length, mark, ranges or order of ids are wrong
 *    9  the correction is of another day or quarter
 *   10  a row of the correction names no row of the interval, or differs in more than metered and status
 *   11  the buffer is shorter than the statement: 40 + 42 for each row of a PH file, 49 + 42 of a PG file
 * The place is a row for 5, 6, 7 and 10 and for 8 where a row is at fault, else 0. */
uint64_t wheatrudder_settle(const uint8_t *interval, size_t interval_length,
                            const uint8_t *correction, size_t correction_length,
                            uint8_t *statement, size_t statement_length);

/* Copies the 21 bytes that count for a row: the correction's where it names the row, else the interval's. It counts 0 bytes
 * where nobody names the row or the files are refused; 11 where the buffer is shorter than the row. */
uint64_t wheatrudder_row(const uint8_t *interval, size_t interval_length,
                         const uint8_t *correction, size_t correction_length,
                         uint16_t id, uint8_t *out, size_t out_length);

/* Reads an interval file of either form and writes its contents out again: the same bytes. Refusals 1 to 7, and 14; 11 where the
 * buffer is shorter than the file. */
uint64_t wheatrudder_rewrite(const uint8_t *interval, size_t interval_length,
                             uint8_t *out, size_t out_length);

/* Reading a statement. Energy is in kWh, prices in li for each kWh, money in fen. The readers ask only that the bytes are
 * there: a statement that wheatrudder_settle has written, and a line i below its wheatrudder_statement_rows. */

/* Where each field of the head stands in the statement; terms, visits and averaged by the head's mark. */
#define WHEATRUDDER_HEAD_DAY 2
#define WHEATRUDDER_HEAD_QUARTER 6
#define WHEATRUDDER_HEAD_PRICE1 7
#define WHEATRUDDER_HEAD_PRICE2 9
#define WHEATRUDDER_HEAD_TOTAL 11
#define WHEATRUDDER_HEAD_SHORTFALL 19
#define WHEATRUDDER_HEAD_ROUNDS 27
#define WHEATRUDDER_HEAD_UNCOVERED 29
#define WHEATRUDDER_HEAD_ROWS 33
#define WHEATRUDDER_HEAD_VISITS_PS 35
#define WHEATRUDDER_HEAD_AVERAGED_PS 39
#define WHEATRUDDER_HEAD_PERCENT_PT 35
#define WHEATRUDDER_HEAD_LIMITS_PT 36
#define WHEATRUDDER_HEAD_VISITS_PT 44
#define WHEATRUDDER_HEAD_AVERAGED_PT 48

/* Where each field of a line stands in the line. */
#define WHEATRUDDER_LINE_ID 2
#define WHEATRUDDER_LINE_CALLED1 4
#define WHEATRUDDER_LINE_CALLED2 8
#define WHEATRUDDER_LINE_COMPENSATION 12
#define WHEATRUDDER_LINE_CUT 16
#define WHEATRUDDER_LINE_WEIGHT 20
#define WHEATRUDDER_LINE_CAP 24
#define WHEATRUDDER_LINE_PAID 28
#define WHEATRUDDER_LINE_CLOSING 32
#define WHEATRUDDER_LINE_PENALTY 34
#define WHEATRUDDER_LINE_RETURNED 38

/* Little-endian numbers of 1, 2, 4 and 8 bytes, byte by byte: nothing has to be aligned. */
static inline uint8_t wheatrudder_u8(const uint8_t *at) { return at[0]; }
static inline uint16_t wheatrudder_u16(const uint8_t *at) { return (uint16_t)(at[0] | at[1] << 8); }
static inline uint32_t wheatrudder_u32(const uint8_t *at)
{
    return wheatrudder_u16(at) | (uint32_t)wheatrudder_u16(at + 2) << 16;
}
static inline uint64_t wheatrudder_u64(const uint8_t *at)
{
    return wheatrudder_u32(at) | (uint64_t)wheatrudder_u32(at + 4) << 32;
}

/* Whether the head states its terms: 1 where its mark is PT, else 0. */
static inline int wheatrudder_statement_terms_stated(const uint8_t *statement)
{
    return statement[0] == 'P' && statement[1] == 'T';
}
/* How many bytes stand before the lines: 49 where the mark is PT, else 40. */
static inline size_t wheatrudder_statement_head_length(const uint8_t *statement)
{
    return wheatrudder_statement_terms_stated(statement) ? WHEATRUDDER_STATEMENT_LENGTH_PT(0)
                                                         : WHEATRUDDER_STATEMENT_LENGTH_PS(0);
}
/* Day, counted from 2000-01-01, and quarter hour of the day, 0 to 95. */
static inline uint32_t wheatrudder_statement_day(const uint8_t *statement)
{
    return wheatrudder_u32(statement + WHEATRUDDER_HEAD_DAY);
}
static inline uint8_t wheatrudder_statement_quarter(const uint8_t *statement)
{
    return wheatrudder_u8(statement + WHEATRUDDER_HEAD_QUARTER);
}
/* The clearing prices of the two tiers, 0 where nobody who was called in the tier delivered. */
static inline uint16_t wheatrudder_statement_price1(const uint8_t *statement)
{
    return wheatrudder_u16(statement + WHEATRUDDER_HEAD_PRICE1);
}
static inline uint16_t wheatrudder_statement_price2(const uint8_t *statement)
{
    return wheatrudder_u16(statement + WHEATRUDDER_HEAD_PRICE2);
}
/* The compensations of all rows together, and how much of it the payers' caps leave uncovered, before penalties. */
static inline uint64_t wheatrudder_statement_total(const uint8_t *statement)
{
    return wheatrudder_u64(statement + WHEATRUDDER_HEAD_TOTAL);
}
static inline uint64_t wheatrudder_statement_shortfall(const uint8_t *statement)
{
    return wheatrudder_u64(statement + WHEATRUDDER_HEAD_SHORTFALL);
}
/* The rounds in which a payer reached its cap. */
static inline uint16_t wheatrudder_statement_rounds(const uint8_t *statement)
{
    return wheatrudder_u16(statement + WHEATRUDDER_HEAD_ROUNDS);
}
/* The need that no offer covered. */
static inline uint32_t wheatrudder_statement_uncovered(const uint8_t *statement)
{
    return wheatrudder_u32(statement + WHEATRUDDER_HEAD_UNCOVERED);
}
/* How many lines follow. */
static inline uint16_t wheatrudder_statement_rows(const uint8_t *statement)
{
    return wheatrudder_u16(statement + WHEATRUDDER_HEAD_ROWS);
}
/* The terms: the baseline in percent of full load, and bid limit k, 0 to 3: tier 1 lowest and highest, tier 2 lowest and highest.
 * Those that the head states, or else those of document 01. */
static inline uint8_t wheatrudder_statement_percent(const uint8_t *statement)
{
    return wheatrudder_statement_terms_stated(statement) ? wheatrudder_u8(statement + WHEATRUDDER_HEAD_PERCENT_PT) : 50;
}
static inline uint16_t wheatrudder_statement_limit(const uint8_t *statement, size_t k)
{
    static const uint16_t of_document_01[4] = {100, 320, 320, 750};
    return wheatrudder_statement_terms_stated(statement) ? wheatrudder_u16(statement + WHEATRUDDER_HEAD_LIMITS_PT + 2 * k)
                                                         : of_document_01[k];
}
/* Payer visits: in each round one for each payer of weight above 0 that has not reached its cap in an earlier one, also in the last
 * round, in which nobody does. With m payers of weight above 0 at most m(m + 1)/2. */
static inline uint32_t wheatrudder_statement_visits(const uint8_t *statement)
{
    return wheatrudder_u32(statement + (wheatrudder_statement_terms_stated(statement) ? WHEATRUDDER_HEAD_VISITS_PT
                                                                                      : WHEATRUDDER_HEAD_VISITS_PS));
}
/* 1 where the thermal average took the baseline's place in what is paid, owed and weighed, else 0. */
static inline uint8_t wheatrudder_statement_averaged(const uint8_t *statement)
{
    return wheatrudder_u8(statement + (wheatrudder_statement_terms_stated(statement) ? WHEATRUDDER_HEAD_AVERAGED_PT
                                                                                     : WHEATRUDDER_HEAD_AVERAGED_PS));
}

/* Line i of a statement, counted from 0; the lines are in the order of the file's rows. */
static inline const uint8_t *wheatrudder_line(const uint8_t *statement, size_t i)
{
    return statement + wheatrudder_statement_head_length(statement) + WHEATRUDDER_LINE_LENGTH * i;
}
/* The row's id. */
static inline uint16_t wheatrudder_line_id(const uint8_t *statement, size_t i)
{
    return wheatrudder_u16(wheatrudder_line(statement, i) + WHEATRUDDER_LINE_ID);
}
/* The energy for which it was called in each tier. */
static inline uint32_t wheatrudder_line_called1(const uint8_t *statement, size_t i)
{
    return wheatrudder_u32(wheatrudder_line(statement, i) + WHEATRUDDER_LINE_CALLED1);
}
static inline uint32_t wheatrudder_line_called2(const uint8_t *statement, size_t i)
{
    return wheatrudder_u32(wheatrudder_line(statement, i) + WHEATRUDDER_LINE_CALLED2);
}
/* Its compensation, and its cut, its part of what caps and penalties leave open: it receives the difference. */
static inline uint32_t wheatrudder_line_compensation(const uint8_t *statement, size_t i)
{
    return wheatrudder_u32(wheatrudder_line(statement, i) + WHEATRUDDER_LINE_COMPENSATION);
}
static inline uint32_t wheatrudder_line_cut(const uint8_t *statement, size_t i)
{
    return wheatrudder_u32(wheatrudder_line(statement, i) + WHEATRUDDER_LINE_CUT);
}
/* The energy by which it shares the bill, the most it may be made to pay, and what it pays. */
static inline uint32_t wheatrudder_line_weight(const uint8_t *statement, size_t i)
{
    return wheatrudder_u32(wheatrudder_line(statement, i) + WHEATRUDDER_LINE_WEIGHT);
}
static inline uint32_t wheatrudder_line_cap(const uint8_t *statement, size_t i)
{
    return wheatrudder_u32(wheatrudder_line(statement, i) + WHEATRUDDER_LINE_CAP);
}
static inline uint32_t wheatrudder_line_paid(const uint8_t *statement, size_t i)
{
    return wheatrudder_u32(wheatrudder_line(statement, i) + WHEATRUDDER_LINE_PAID);
}
/* The round in which it reached its cap, 0 if it did not. */
static inline uint16_t wheatrudder_line_closing(const uint8_t *statement, size_t i)
{
    return wheatrudder_u16(wheatrudder_line(statement, i) + WHEATRUDDER_LINE_CLOSING);
}
/* The penalty that it owes for energy called and not delivered while reduced for reasons of its own, and how much of that
 * is returned, since no shortfall needed it. */
static inline uint32_t wheatrudder_line_penalty(const uint8_t *statement, size_t i)
{
    return wheatrudder_u32(wheatrudder_line(statement, i) + WHEATRUDDER_LINE_PENALTY);
}
static inline uint32_t wheatrudder_line_returned(const uint8_t *statement, size_t i)
{
    return wheatrudder_u32(wheatrudder_line(statement, i) + WHEATRUDDER_LINE_RETURNED);
}

#ifdef __cplusplus
}
#endif

#endif
