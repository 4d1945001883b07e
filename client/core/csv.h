// What is shown, as CSV: UTF-8 with a byte order mark, lines that end with CR LF, fields quoted by RFC 4180, a decimal
// point. Money stands in two columns, whole fen and yuan. A text that a spreadsheet would take for a formula begins
// with an apostrophe.
//
// For who reads such a file back:
// - Every record has as many fields as the head.
// - The head names each column in both tongues, a space between: "paid_fen 分摊_分". The English name is the one to go
//   by.
// - Where the day is not ready to book, or a file of the folder is not accounted for, one record stands before the
//   head: its first field says so in both tongues and names the files, all others are empty. So the head is the first
//   record whose first field is "date 日期", and it is the first or second.
// - The terms under which a quarter was settled stand in five columns: the baseline in percent of full load, and the
//   limits of bids in li. They are those that its interval file states, or else those of the rules as issued. Behind
//   them "averaged" is 1 where the thermal average ruled in the baseline's place, else 0.
// - A field that holds a number has digits, perhaps a "-" before them, and in yuan a point with two digits behind it.
//   A figure that does not exist is an empty field: 0 is a figure.
// - Every other field is text. One apostrophe at its front is no part of it: it stands before = + - @, their wide
// forms,
//   a tab, a return and an apostrophe.
#pragma once

#include "view.h"

#include <string>

namespace client {

// A plant's day: one line a quarter, those without a statement too, with their state; hashes of the files it comes
// from. A file is named where its quarter has one of its kind and not several that differ.
std::string day_as_csv(const PlantDay &day);

// All rows of a day: a line for each row and quarter that is settled, with every figure of its line.
std::string rows_as_csv(const Reading &reading, Day day);

// The list of files: name, form, day and quarter, hash, whether it is at fault and accounted for, what is said of it
// and what to do, in both tongues. Only a file that was read to its end has a hash.
std::string files_as_csv(const Reading &reading);

// The name that an export is offered under: "753-2026-10-31.csv", or "all-2026-10-31.csv" for all rows, with
// "-not-ready" where the day may not be booked.
std::string csv_name(const Reading &reading, Day day, std::optional<RowId> id);

// Whether the bytes are the front of such a file.
bool is_export(View bytes);

} // namespace client
