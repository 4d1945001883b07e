#include "view.h"

#include "rules.h"

#include "wheatrudder.h"

#include <algorithm>

namespace client {

namespace {

// The plant at a place of an accepted interval file, counted from 0. A correction changes neither kind nor capacity.
Plant plant_at(View interval, std::size_t index) {
    const std::uint8_t *at = interval.data() + head_of(interval).form.length(index);
    return {{wheatrudder_u16(at + 2)}, static_cast<Kind>(wheatrudder_u8(at + 4)), wheatrudder_u16(at + 5)};
}

void count(Arrived &arrived, const QuarterRead &quarter, unsigned number) {
    switch (quarter.state) {
    case State::missing:
        ++arrived.missing;
        arrived.first_missing = arrived.first_missing.value_or(Quarter{static_cast<std::uint8_t>(number)});
        break;
    case State::settled:
    case State::corrected:
        ++arrived.settled;
        arrived.corrected += quarter.state == State::corrected;
        break;
    default:
        ++arrived.without;
        arrived.arriving += quarter.state == State::arriving;
    }
}

std::string number(std::size_t count) {
    return text(static_cast<std::int64_t>(count));
}

// Everything of a day's quarters that keeps it from being booked.
std::vector<Said> hindrances(const Arrived &arrived) {
    std::vector<Said> all;
    if (arrived.missing > 0 && arrived.first_missing) {
        all.push_back({Word::day_missing, {number(arrived.missing), span(*arrived.first_missing)}});
    }
    if (arrived.without > arrived.arriving) {
        all.push_back({Word::day_without, {number(arrived.without - arrived.arriving)}});
    }
    if (arrived.arriving > 0) {
        all.push_back({Word::day_arriving, {number(arrived.arriving)}});
    }
    if (arrived.is_restless) {
        all.push_back(Word::day_restless);
    }
    return all;
}

// What a plant gets or pays, in words: a sign alone would not tell a newcomer.
Said amount_of(const Statement &statement, RowId id) {
    const auto line = statement.of(id);
    if (!line) {
        return Word::outdated_absent;
    }
    const Fen net = line->net();
    return net == Fen{}  ? Said(Word::outdated_zero)
           : net > Fen{} ? Said(Word::outdated_gets, {text(net)})
                         : Said(Word::outdated_pays, {text(-net)});
}

// A statement of another time beside that of now: both amounts, both terms where the interval file was replaced by one
// with others, and whether the thermal average ruled where only one of the two says so.
Said outdated_by(const Reading &reading, const File &file, RowId id) {
    const Statement then(file.bytes);
    const Statement &now = *reading.at(*file.slot).statement;
    Said told{Word::outdated,
              {file.name, text(*file.slot), plant_name(reading, id), amount_of(then, id), amount_of(now, id)}};
    if (terms_of(then) != terms_of(now)) {
        const Said terms{Word::outdated_terms, {in_words(terms_of(then)), in_words(terms_of(now))}};
        told = {Word::listing_sentences, {told, terms}};
    }
    const auto average = change_of_average(then, now);
    return average ? Said(Word::listing_sentences, {told, *average}) : told;
}

} // namespace

std::vector<Plant> plants_of(const Reading &reading, Day day) {
    const auto found = reading.days.find(day);
    if (found == reading.days.end()) {
        return {};
    }
    std::vector<Plant> plants;
    std::vector<bool> is_known(65'536);
    for (const QuarterRead &quarter : found->second) {
        const std::size_t rows = quarter.statement ? quarter.statement->rows() : 0;
        for (std::size_t row = 0; row < rows; ++row) {
            const Plant plant = plant_at(reading.interval(quarter), row);
            if (!is_known[plant.id.number]) {
                is_known[plant.id.number] = true;
                plants.push_back(plant);
            }
        }
    }
    std::sort(plants.begin(), plants.end(), [](const Plant &one, const Plant &other) { return one.id < other.id; });
    return plants;
}

PlantDay plant_day(std::shared_ptr<const Reading> reading, Day day, RowId id) {
    PlantDay plant{.reading = std::move(reading), .day = day, .id = id, .quarters = {}, .sums = {}};
    for (unsigned number = 0; number < quarters_of_day; ++number) {
        PlantQuarter &at = plant.quarters[number];
        at.read = &plant.reading->at({day, {static_cast<std::uint8_t>(number)}});
        if (!at.read->statement) {
            continue;
        }
        at.line = at.read->statement->of(id);
        if (at.line) {
            at.row = counting_row(plant.reading->interval(*at.read), plant.reading->correction(*at.read), id);
            plant.sums.add(*at.line);
        }
        if (at.read->before) {
            at.before = at.read->before->of(id);
        }
    }
    return plant;
}

std::optional<Quarter> dearest(const PlantDay &day) {
    std::optional<Quarter> found;
    Fen lowest;
    for (unsigned number = 0; number < quarters_of_day; ++number) {
        const auto &line = day.quarters[number].line;
        if (line && line->net() < lowest) {
            lowest = line->net();
            found = Quarter{static_cast<std::uint8_t>(number)};
        }
    }
    return found;
}

Arrived arrived(const Reading &reading, Day day) {
    Arrived arrived;
    for (unsigned number = 0; number < quarters_of_day; ++number) {
        count(arrived, reading.at({day, {static_cast<std::uint8_t>(number)}}), number);
    }
    arrived.unaccounted = reading.unaccounted();
    arrived.is_restless = reading.restless;
    return arrived;
}

Said readiness(const Reading &reading, Day day) {
    const Arrived all = arrived(reading, day);
    if (all.is_ready()) {
        return Word::day_ready;
    }
    const auto sentences = hindrances(all);
    const Said why =
        sentences.empty() ? Said(Word::day_not_ready_plain) : Said(Word::day_not_ready, {beside(sentences)});
    const auto open = reservation(reading);
    return open ? Said(Word::listing_sentences, {why, *open}) : why;
}

std::vector<Said> outdated(const Reading &reading, Day day, RowId id) {
    std::vector<Said> told;
    std::size_t others = 0;
    for (const std::size_t place : reading.outdated) {
        const File &file = reading.files.at(place);
        if (file.slot->day == day) {
            told.push_back(outdated_by(reading, file, id));
        } else {
            ++others;
        }
    }
    if (others > 0) {
        told.push_back(counted(others, Word::outdated_others_one, Word::outdated_others));
    }
    return told;
}

std::optional<Said> outdated(const Reading &reading, Slot slot, RowId id) {
    std::optional<Said> told;
    for (const std::size_t place : reading.outdated) {
        const File &file = reading.files.at(place);
        if (file.slot == slot) {
            const Said one = outdated_by(reading, file, id);
            told = told ? Said(Word::listing_sentences, {*told, one}) : one;
        }
    }
    return told;
}

Namer names_of(const Reading &reading) {
    return [&reading](RowId id, Tongue tongue) { return reading.names.of(id, tongue); };
}

Said plant_name(const Reading &reading, RowId id) {
    return called(id, names_of(reading));
}

} // namespace client
