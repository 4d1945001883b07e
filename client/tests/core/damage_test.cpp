// One file of a complete day is damaged in one place: the day is not ready to book, or every statement is that of the
// whole day, or the engine accepts the damaged file for a quarter of the day. Without exception.
//
//   damage_test [DRAWS [SEED]]
//
// A third of the interval files of a day state their terms, and one in four has neither wind nor sun. First every
// damage of one correction of either form of interval file, and of one file that states its terms: each byte changed
// (to all other values within its head), each cut, each lost byte, a byte added at each place; links, files that may
// not be read, other names. Then so many drawn damages of drawn days, of interval files too.
#include "check.h"
#include "trial.h"
#include "view.h"

#include <algorithm>
#include <functional>
#include <map>

using namespace client;
using namespace trial;
using check::holds;

namespace {

using ReadIn = std::shared_ptr<const Reading>;
// What a quarter has, as far as anybody can see from outside.
struct Pair {
    Bytes interval, correction;
};
using Statements = std::map<std::uint8_t, Bytes>;

// How files are called: in any way, or as we write names.
enum class Naming { plain, written };

// Two quarters that are always corrected, the second of a file that states its terms.
constexpr std::uint8_t of_plain = 40, of_stated = 41;

// A complete day of few rows, some of it corrected, and its folder.
struct WholeDay {
    std::uint32_t day;
    Naming names;
    fs::path in = folder();
    std::map<std::uint8_t, Pair> pairs;
    Statements statements;

    WholeDay(Drawer &drawer, std::uint32_t number, Naming how) : day(number), names(how) {
        for (std::uint8_t quarter = 0; quarter < quarters_of_day; ++quarter) {
            Pair &pair = pairs[quarter];
            const bool is_stated = quarter == of_stated || (quarter != of_plain && drawer.below(3) == 0);
            const std::uint32_t rows = 1 + drawer.below(4);
            pair.interval =
                is_stated ? drawer.stated_interval(day, quarter, rows) : drawer.interval(day, quarter, rows);
            put(path(quarter, "interval"), pair.interval);
            if (drawer.below(16) == 0 || quarter == of_plain || quarter == of_stated) {
                pair.correction = drawer.correction(pair.interval);
                put(path(quarter, "correction"), pair.correction);
            }
            const auto answer = settle(pair.interval, pair.correction);
            const View bytes = std::get<Statement>(answer).bytes();
            statements[quarter] = {bytes.begin(), bytes.end()};
        }
    }
    WholeDay(const WholeDay &) = delete;
    ~WholeDay() { fs::remove_all(in); }

    fs::path path(std::uint8_t quarter, const std::string &kind) const {
        if (names == Naming::plain) {
            return in / (kind.substr(0, 1) + std::to_string(quarter));
        }
        return in / date({day}).append(quarter < 10 ? "-q0" : "-q").append(std::to_string(quarter)).append("." + kind);
    }
};

ReadIn read_now(const fs::path &in) {
    return std::get<ReadIn>(read_folder(in));
}

Statements statements_of(const Reading &reading, std::uint32_t day) {
    Statements all;
    for (std::uint8_t quarter = 0; quarter < quarters_of_day; ++quarter) {
        if (const auto &statement = reading.at({{day}, {quarter}}).statement) {
            all[quarter] = {statement->bytes().begin(), statement->bytes().end()};
        }
    }
    return all;
}

// Whether the engine accepts a file, instead of the one that it was, for a quarter of the day: told here once more, in
// the plainest way.
bool is_accepted(const WholeDay &whole, std::uint8_t was, const std::string &kind, const Bytes &damaged) {
    if (damaged.size() < 7 || damaged[0] != 'P' || (damaged[1] != 'H' && damaged[1] != 'G' && damaged[1] != 'K')) {
        return false;
    }
    const std::uint32_t day = damaged[2] | damaged[3] << 8 | damaged[4] << 16 | static_cast<unsigned>(damaged[5]) << 24;
    const bool is_interval = damaged[1] != 'K';
    const std::uint8_t quarter = damaged[6];
    const bool is_elsewhere = quarter != was && whole.names == Naming::written;
    if (day != whole.day || quarter >= quarters_of_day || is_elsewhere || is_interval != (kind == "interval")) {
        return false;
    }
    const Pair &pair = whole.pairs.at(quarter);
    // Beside another file of the same kind it is one too many.
    if (quarter != was && (is_interval || !pair.correction.empty())) {
        return false;
    }
    const auto answer = is_interval ? settle(damaged, pair.correction) : settle(pair.interval, damaged);
    return std::holds_alternative<Statement>(answer);
}

struct Tally {
    std::size_t tried = 0, ready = 0, ready_and_same = 0;
};

// What has to hold of the folder now. `may_count` where the engine accepts the damaged file.
void must_hold(const WholeDay &whole, bool may_count, const std::string &what, Tally &tally) {
    const ReadIn reading = read_now(whole.in);
    const bool is_ready = arrived(*reading, {whole.day}).is_ready();
    const bool is_same = statements_of(*reading, whole.day) == whole.statements;
    holds(!is_ready || is_same || may_count, "ready to book with other figures: " + what);
    // What is not ready says why, and which file.
    const std::string said = readiness(*reading, {whole.day}).in(Tongue::english);
    holds(is_ready == (said == "Ready to book"), said);
    holds(!reservation(*reading) == (reading->unaccounted() == 0), what);
    ++tally.tried;
    tally.ready += is_ready;
    tally.ready_and_same += is_ready && is_same;
}

// Puts other bytes in a file's place, looks, and puts it right again.
void try_bytes(const WholeDay &whole, std::uint8_t quarter, const std::string &kind, const Bytes &damaged,
               const std::string &what, Tally &tally) {
    const fs::path file = whole.path(quarter, kind);
    const Bytes before = bytes_at(file);
    put(file, damaged);
    must_hold(whole, is_accepted(whole, quarter, kind, damaged), what, tally);
    put(file, before);
}

Bytes without(Bytes bytes, std::size_t at) {
    bytes.erase(bytes.begin() + static_cast<std::ptrdiff_t>(at));
    return bytes;
}

Bytes with_more(Bytes bytes, std::size_t at, std::uint8_t byte) {
    bytes.insert(bytes.begin() + static_cast<std::ptrdiff_t>(at), byte);
    return bytes;
}

// ---- every damage of one file ----

// Other values of a byte: all of them within a head, else those that differ in one bit, and a few that mean something.
std::vector<std::uint8_t> others_of(std::uint8_t byte, bool is_head) {
    std::vector<std::uint8_t> values;
    for (unsigned value = 0; value < 256; ++value) {
        const unsigned changed = value ^ byte;
        const bool is_one_bit = (changed & (changed - 1)) == 0;
        if (changed != 0 && (is_head || is_one_bit || value == 0 || value == 255)) {
            values.push_back(static_cast<std::uint8_t>(value));
        }
    }
    return values;
}

void every_damage(const WholeDay &whole, std::uint8_t quarter, const std::string &kind, Tally &tally) {
    const Pair &pair = whole.pairs.at(quarter);
    const Bytes good = kind == "interval" ? pair.interval : pair.correction;
    const std::size_t head = form_of(good)->head;
    const auto attempt = [&](const Bytes &damaged, const std::string &what, std::size_t at) {
        try_bytes(whole, quarter, kind, damaged, what + " " + std::to_string(at), tally);
    };
    for (std::size_t at = 0; at < good.size(); ++at) {
        for (const std::uint8_t value : others_of(good[at], at < head)) {
            attempt(with(good, at, value, 1), std::string("byte ").append(std::to_string(value)).append(" at"), at);
        }
        attempt(cut(good, at), "cut to", at);
        attempt(without(good, at), "lost at", at);
    }
    for (std::size_t at = 0; at <= good.size(); ++at) {
        for (const unsigned value : {0u, 1u, 0x14u, unsigned{'P'}, 255u}) {
            attempt(with_more(good, at, static_cast<std::uint8_t>(value)), "added at", at);
        }
    }
}

// As somebody who is not the administrator, who may read everything.
void as_nobody(const std::function<void()> &work) {
    const bool is_root = geteuid() == 0;
    holds(!is_root || seteuid(65'534) == 0, "seteuid");
    work();
    holds(!is_root || seteuid(0) == 0, "seteuid");
}

// A file is there, and its bytes are not: each time the day is not ready.
void hidden_files(const WholeDay &whole, std::uint8_t quarter, Tally &tally) {
    for (const std::string kind : {"interval", "correction"}) {
        const fs::path file = whole.path(quarter, kind), away = whole.in.parent_path() / "away";
        chmod(file.c_str(), 0);
        as_nobody([&] { must_hold(whole, false, "not readable", tally); });
        chmod(file.c_str(), 0644);
        fs::rename(file, away);
        for (const bool is_dangling : {false, true}) {
            fs::create_symlink(is_dangling ? fs::path("nowhere") : away, file);
            must_hold(whole, false, "a link", tally);
            fs::remove(file);
        }
        fs::create_directories(whole.in / "sub" / "inner");
        fs::rename(away, whole.in / "sub" / "inner" / "x");
        must_hold(whole, false, "in a folder within a subfolder", tally);
        fs::rename(whole.in / "sub" / "inner" / "x", file);
        fs::remove_all(whole.in / "sub");
        must_hold(whole, false, "as it was", tally);
    }
}

void other_names(const WholeDay &whole, std::uint8_t quarter, Tally &tally) {
    for (const std::string kind : {"interval", "correction"}) {
        const fs::path file = whole.path(quarter, kind);
        for (const std::string name : {"plants.csv", "notes.txt", "x.xlsx", ".hidden", "a.correction", "a.interval",
                                       "a.statement", "2000-01-01-q00.interval", "2099-12-31-q95.correction", "x"}) {
            fs::rename(file, whole.in / name);
            must_hold(whole, false, kind + " named " + name, tally);
            // Damaged as well: the name changes nothing for the better.
            Bytes damaged = whole.pairs.at(quarter).interval;
            damaged = kind == "interval" ? damaged : whole.pairs.at(quarter).correction;
            put(whole.in / name, with(damaged, 0, 'X', 1));
            must_hold(whole, false, kind + " damaged and named " + name, tally);
            fs::remove(whole.in / name);
            put(file, with(damaged, 0, 'P', 1));
        }
    }
}

// ---- drawn damages ----

Bytes drawn_damage(Drawer &drawer, const Bytes &good) {
    const auto at = drawer.below(static_cast<std::uint32_t>(good.size()));
    // Half of the damages are in the head, where they do most.
    const auto near = drawer.below(2) == 0 ? at : at % static_cast<std::uint32_t>(form_of(good)->head);
    const auto byte = static_cast<std::uint8_t>(drawer.below(256));
    switch (drawer.below(6)) {
    case 0:
        return cut(good, at);
    case 1:
        return without(good, near);
    case 2:
        return with_more(good, near, byte);
    case 3:
        return with(good, near, good[near] ^ (1u << drawer.below(8)), 1);
    default:
        return with(good, near, byte, 1);
    }
}

// Days whose numbers look like something else: the front of a zip archive, letters, the ends of the range.
std::uint32_t drawn_number(Drawer &drawer) {
    const std::vector<std::uint32_t> special{0, 1, 0x0403, 0x0605, 0x2020, 0x4b50, 0x4850, 0x7e7e, 36'524, 9'800};
    const auto at = drawer.below(2 * static_cast<std::uint32_t>(special.size()));
    return at < special.size() ? special[at] : drawer.below(36'525);
}

void drawn_damages(std::size_t draws, unsigned seed, Tally &tally) {
    constexpr std::size_t of_one_day = 200;
    Drawer drawer(seed);
    for (std::size_t drawn = 0; drawn < draws;) {
        const WholeDay whole(drawer, drawn_number(drawer), drawer.below(2) == 0 ? Naming::plain : Naming::written);
        Tally before;
        must_hold(whole, false, "whole", before);
        holds(before.ready == 1, "the whole day is not ready");
        for (std::size_t damage = 0; damage < of_one_day && drawn < draws; ++damage, ++drawn) {
            auto quarter = static_cast<std::uint8_t>(drawer.below(quarters_of_day));
            const bool is_interval = drawer.below(4) == 0;
            while (!is_interval && whole.pairs.at(quarter).correction.empty()) {
                quarter = static_cast<std::uint8_t>((quarter + 1) % quarters_of_day);
            }
            const Pair &pair = whole.pairs.at(quarter);
            const Bytes damaged = drawn_damage(drawer, is_interval ? pair.interval : pair.correction);
            try_bytes(whole, quarter, is_interval ? "interval" : "correction", damaged,
                      std::string("seed ").append(std::to_string(seed)).append(", draw ").append(std::to_string(drawn)),
                      tally);
        }
    }
}

void tell(const char *what, const Tally &tally) {
    std::cout << "damage: " << what << ": " << tally.tried << " tried, " << tally.ready << " ready, of these "
              << tally.ready_and_same << " with the figures of the whole day and the others accepted by the engine\n";
}

} // namespace

int main(int argc, char **argv) {
    const std::size_t draws = argc > 1 ? std::stoul(argv[1]) : 1'000;
    // With this seed the thermal average rules quarters of which every place is damaged.
    const unsigned seed = argc > 2 ? static_cast<unsigned>(std::stoul(argv[2])) : 78;
    Drawer drawer(seed);
    Tally every, drawn;
    for (const auto &[number, names] : {std::pair{9'800u, Naming::plain}, std::pair{0x0403u, Naming::written}}) {
        const WholeDay whole(drawer, number, names);
        every_damage(whole, of_plain, "correction", every);
        every_damage(whole, of_stated, "correction", every);
        if (names == Naming::plain) { // where no name helps
            every_damage(whole, of_stated, "interval", every);
        }
        for (const std::uint8_t quarter : {of_plain, of_stated}) {
            hidden_files(whole, quarter, every);
            other_names(whole, quarter, every);
        }
    }
    tell("every place", every);
    drawn_damages(draws, seed, drawn);
    tell("drawn", drawn);
    return check::passed("damage");
}
