// Files that tests make: interval X of document 01 and what can be done to it, and folders that are gone at the end.
#pragma once

#include "engine.h"

#include <filesystem>
#include <fstream>
#include <string>
#include <vector>

namespace made {

using client::Bytes;

// A row as the files have it.
struct Entry {
    unsigned id, kind, capacity, metered;
    unsigned status = 0, offered = 0, minimum = 0, bid1 = 0, bid2 = 0;
};

// Rows 1, 2 and 3 of interval X: a unit that sells regulation, one that ran high, a wind farm.
inline std::vector<Entry> rows_of_x() {
    return {{1, 1, 100, 9'000, 0, 1, 8'000, 200, 400}, {2, 1, 100, 20'000}, {3, 2, 100, 5'000}};
}

// The same without wind, and row 2 at or below half load: the thermal average rules. At 12,000 kWh it is 10,500 of 100
// MW, and by hand: row 1 holds back 500 and 1,000 kWh at 200 and 400 li, 500.00 yuan; row 2 weighs 1,500 kWh and pays
// its cap at tariff 1300, 390.00 yuan; the other 110.00 are cut.
inline std::vector<Entry> rows_without_wind(unsigned metered = 12'000) {
    std::vector<Entry> rows = rows_of_x();
    rows[1].metered = metered;
    rows[2].metered = 0;
    return rows;
}

inline void put(Bytes &bytes, std::uint64_t number, unsigned width) {
    for (unsigned at = 0; at < width; ++at) {
        bytes.push_back(static_cast<std::uint8_t>(number >> (8 * at)));
    }
}

inline void put_rows(Bytes &bytes, const std::vector<Entry> &rows) {
    put(bytes, rows.size(), 2);
    for (const Entry &row : rows) {
        bytes.insert(bytes.end(), {'P', 'R'});
        put(bytes, row.id, 2);
        put(bytes, row.kind, 1);
        put(bytes, row.capacity, 2);
        put(bytes, row.metered, 4);
        put(bytes, row.status, 1);
        put(bytes, row.offered, 1);
        put(bytes, row.minimum, 4);
        put(bytes, row.bid1, 2);
        put(bytes, row.bid2, 2);
    }
}

inline Bytes interval(client::Slot slot, unsigned tariff = 1'300, const std::vector<Entry> &rows = rows_of_x(),
                      unsigned need = 3'000) {
    Bytes bytes{'P', 'H'};
    put(bytes, slot.day.number, 4);
    put(bytes, slot.quarter.number, 1);
    put(bytes, tariff, 2);
    put(bytes, need, 4);
    put_rows(bytes, rows);
    return bytes;
}

// An interval file PH with its terms stated: PG.
inline Bytes stating(const client::Terms &terms, Bytes bytes) {
    bytes.at(1) = 'G';
    Bytes stated;
    put(stated, static_cast<std::uint64_t>(terms.baseline), 1);
    for (const client::Li limit : terms.limits) {
        put(stated, static_cast<std::uint64_t>(limit.count), 2);
    }
    bytes.insert(bytes.begin() + client::ph_form.head, stated.begin(), stated.end());
    return bytes;
}

// Terms that differ from those as issued in every number.
inline constexpr client::Terms other_terms{45, {{{150}, {300}, {350}, {650}}}};

inline Bytes correction(client::Slot slot, const std::vector<Entry> &rows) {
    Bytes bytes{'P', 'K'};
    put(bytes, slot.day.number, 4);
    put(bytes, slot.quarter.number, 1);
    put_rows(bytes, rows);
    return bytes;
}

// Another meter reading of row 3, the wind farm.
inline Bytes wind_corrected(client::Slot slot, unsigned metered) {
    Entry wind = rows_of_x()[2];
    wind.metered = metered;
    return correction(slot, {wind});
}

// Writes over what is there, in place.
inline void write(const std::filesystem::path &path, const Bytes &bytes) {
    std::ofstream out(path, std::ios::binary | std::ios::trunc);
    out.write(reinterpret_cast<const char *>(bytes.data()), static_cast<std::streamsize>(bytes.size()));
}

// Puts a file in the place of another by renaming, as careful programs do.
inline void replace(const std::filesystem::path &path, const Bytes &bytes) {
    const std::filesystem::path beside = path.parent_path().parent_path() / (path.filename().native() + ".new");
    write(beside, bytes);
    std::filesystem::rename(beside, path);
}

// A folder of one's own within a folder of its own, so that what lies beside is nobody else's.
class Folder {
  public:
    Folder() {
        std::string name = (std::filesystem::temp_directory_path() / "wheatrudder-XXXXXX").native();
        around_ = mkdtemp(name.data());
        path_ = around_ / "files";
        std::filesystem::create_directory(path_);
    }
    Folder(const Folder &) = delete;
    Folder &operator=(const Folder &) = delete;
    ~Folder() {
        std::error_code ignored;
        std::filesystem::permissions(path_, std::filesystem::perms::owner_all, ignored);
        std::filesystem::remove_all(around_, ignored);
    }

    const std::filesystem::path &path() const { return path_; }
    const std::filesystem::path &around() const { return around_; }
    std::filesystem::path operator/(const std::string &name) const { return path_ / name; }

  private:
    std::filesystem::path around_, path_;
};

} // namespace made
