// What the screens show of a reading: a plant's day, and who is in a day. Functions of a reading and of what was
// chosen.
#pragma once

#include "fields.h"
#include "named.h"
#include "reading.h"

#include <optional>
#include <vector>

namespace client {

// A row that some settled quarter of a day has.
struct Plant {
    RowId id;
    Kind kind = Kind::thermal;
    std::int64_t capacity = 0;
};

// By id. Kind and capacity are those of the first settled quarter that has the row.
std::vector<Plant> plants_of(const Reading &reading, Day day);

// A plant in one quarter of a day.
struct PlantQuarter {
    const QuarterRead *read = nullptr; // never null
    std::optional<Row> row; // the row that counts; none where there is no statement, or the plant is not in it
    std::optional<Line> line;
    std::optional<Line> before; // its line without the correction, where there is one
};

struct PlantDay {
    std::shared_ptr<const Reading> reading;
    Day day;
    RowId id;
    std::array<PlantQuarter, quarters_of_day> quarters;
    Sums sums; // of its settled quarters
};

PlantDay plant_day(std::shared_ptr<const Reading> reading, Day day, RowId id);

// The quarter that costs the plant most, the first of several; none where no quarter costs anything.
std::optional<Quarter> dearest(const PlantDay &day);

// What has arrived of a day.
struct Arrived {
    std::size_t settled = 0; // corrected ones too
    std::size_t corrected = 0;
    std::size_t missing = 0;
    std::size_t without = 0;  // they have an interval file, and no statement
    std::size_t arriving = 0; // of these, the ones that may still be arriving
    std::optional<Quarter> first_missing;
    std::size_t unaccounted = 0; // files of the folder, whichever day they name: a damaged head can name any
    bool is_restless = false;    // files came or went while the folder was read

    // It may be booked: all 96 are settled, and every file of the folder is accounted for.
    bool is_ready() const { return settled == quarters_of_day && unaccounted == 0 && !is_restless; }
};

Arrived arrived(const Reading &reading, Day day);

// Whether a day may be booked, and if not, everything that hinders it: one sentence, and which files are not accounted
// for.
Said readiness(const Reading &reading, Day day);

// Statements in the folder that differ from those of now, for the top of a screen: of the day each with both amounts of
// the plant, those of other days counted.
std::vector<Said> outdated(const Reading &reading, Day day, RowId id);
// The same for one quarter; none where there is none.
std::optional<Said> outdated(const Reading &reading, Slot slot, RowId id);

// The names that the reading has, for as long as there is the reading.
Namer names_of(const Reading &reading);
// "Row 753", or its name and its id where it has one.
Said plant_name(const Reading &reading, RowId id);

} // namespace client
