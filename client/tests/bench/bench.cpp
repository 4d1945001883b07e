// How fast the window is: medians of a few runs, each beside the plain program over the same files right after it, so
// that a speed is a ratio. Prints a table in Markdown. Only what MainWindow offers to everybody is used.
//
//   bench [RUNS]
#include "made.h"
#include "main_window.h"
#include "measured.h"
#include "typeface.h"

#include <QApplication>
#include <QFile>
#include <QFileInfo>
#include <QProcess>
#include <QTabWidget>
#include <QTemporaryDir>

#include <algorithm>
#include <cstdio>

using namespace client;

namespace {

constexpr unsigned first_day = 9'770, month_days = 31, quarters = 96;
constexpr unsigned rows_in_all = 256;

[[noreturn]] void fail(const char *why) {
    std::fprintf(stderr, "bench: %s\n", why);
    std::exit(1);
}

void must(bool holds, const char *what) {
    if (!holds) {
        fail(what);
    }
}

// Files.

// One row in four sells regulation, the others pay. `more` moves one meter reading, so that figures change.
Bytes interval_of(unsigned day, unsigned quarter, unsigned more = 0) {
    std::vector<made::Entry> rows;
    for (unsigned id = 1; id <= rows_in_all; ++id) {
        if (id % 4 == 0) {
            rows.push_back({id, 1, 300, 27'000 + id, 0, 1, 24'000, 200 + id % 100, 400 + id % 100});
        } else {
            rows.push_back({id, id % 4 == 1 ? 1u : 2u, 200, id % 4 == 1 ? 40'000 + id : 9'000 + id});
        }
    }
    rows[0].metered += more;
    return made::interval({{day}, {static_cast<std::uint8_t>(quarter)}}, 1'300, rows, 200'000);
}

std::string path_of(unsigned day, unsigned quarter) {
    return std::to_string(day) + "/" + std::to_string(quarter) + ".interval";
}

// Days of 96 quarters, each in a folder of its own.
void make_days(const made::Folder &folder, unsigned days) {
    for (unsigned day = first_day; day < first_day + days; ++day) {
        std::filesystem::create_directory(folder / std::to_string(day));
        for (unsigned quarter = 0; quarter < quarters; ++quarter) {
            made::write(folder / path_of(day, quarter), interval_of(day, quarter));
        }
    }
}

// A line of the table.

struct Measured {
    Times client, plain, block_thread, block_wall;
};

void print_head() {
    std::printf("| what, in ms | client | plain program | ratio | longest block: processor | by the clock |\n");
    std::printf("|---|---|---|---|---|---|\n");
}

void print(const char *what, const Measured &measured) {
    const bool is_compared = !measured.plain.all.empty();
    const QString ratio =
        is_compared ? QString::number(measured.client.median() / measured.plain.median(), 'f', 1) : QString();
    std::printf("| %s | %s | %s | %s | %s | %s |\n", what, measured.client.text().c_str(),
                measured.plain.text().c_str(), qPrintable(ratio), measured.block_thread.text().c_str(),
                measured.block_wall.text().c_str());
    std::fflush(stdout);
}

// From its start to its end, with all that it prints read.
double time_of_plain(const std::filesystem::path &path) {
    QProcess plain;
    const double begun = wall_ms();
    plain.start(PLAIN_PROGRAM, {QString::fromStdString(path.native())});
    must(plain.waitForFinished(-1) && plain.exitCode() == 0, "the plain program fails");
    const double took = wall_ms() - begun;
    must(!plain.readAllStandardOutput().isEmpty(), "the plain program prints nothing");
    return took;
}

// Both over and over, one after the other, so that a machine that is busy for a while is so for both.
Measured measure(int runs, const std::filesystem::path &plain_reads, const std::function<void(Loop &)> &act) {
    Measured measured;
    for (int run = 0; run < runs; ++run) {
        Loop loop;
        const double begun = wall_ms();
        act(loop);
        measured.client.all.push_back(wall_ms() - begun);
        measured.block_thread.all.push_back(loop.longest_thread_ms);
        measured.block_wall.all.push_back(loop.longest_wall_ms);
        measured.plain.all.push_back(time_of_plain(plain_reads));
        Loop().until_idle();
    }
    return measured;
}

// A window with settings of its own.
class Bench {
  public:
    explicit Bench(Seeing seeing) : settings_(kept_.filePath("settings.ini")) {
        settings_.keep_tongue(Tongue::english);
        settings_.keep_plant({1});
        window_ = std::make_unique<MainWindow>(settings_, std::nullopt, seeing);
        window_->show();
        Loop().until_idle();
    }

    MainWindow &window() { return *window_; }

    // What is asked of the window, from there until its figures are painted.
    void painted_after(Loop &loop, const std::function<void()> &ask) {
        bool is_taken = false;
        const auto heard = QObject::connect(window_.get(), &MainWindow::taken, [&] { is_taken = true; });
        ask();
        must(loop.until([&] { return is_taken && window_->shown().reading; }), "no figures come");
        QObject::disconnect(heard);
        loop.until_idle();
    }

    void open(Loop &loop, const std::filesystem::path &folder) {
        painted_after(loop, [&] { window_->open_folder(folder); });
    }

    void open(const std::filesystem::path &folder) {
        Loop loop;
        open(loop, folder);
    }

  private:
    QTemporaryDir kept_;
    Settings settings_;
    std::unique_ptr<MainWindow> window_;
};

// What is measured.

Measured opening(int runs, const made::Folder &folder) {
    Bench bench({.by_events = true, .glance_ms = 0});
    bench.open(folder.path()); // what is done once is not counted
    return measure(runs, folder.path(), [&](Loop &loop) { bench.open(loop, folder.path()); });
}

Measured choosing(int runs, const made::Folder &day) {
    Bench bench({.by_events = false, .glance_ms = 0});
    bench.open(day.path());
    std::uint8_t quarter = 0;
    return measure(runs, day / path_of(first_day, 0), [&](Loop &loop) {
        const double thread = thread_ms(), wall = wall_ms();
        bench.window().choose_quarter({++quarter});
        // The call itself is a part of the turn in which a key would have asked for it.
        loop.longest_thread_ms = thread_ms() - thread;
        loop.longest_wall_ms = wall_ms() - wall;
        loop.until_idle();
    });
}

// From the moment at which the file lies in the folder until what it says is painted.
Measured changing(int runs, const made::Folder &day) {
    Bench bench({.by_events = true, .glance_ms = 800});
    bench.open(day.path());
    const Slot slot{{first_day}, {40}};
    unsigned more = 0;
    return measure(runs, day.path(), [&](Loop &loop) {
        const Bytes bytes = interval_of(first_day, slot.quarter.number, ++more);
        made::replace(day / path_of(first_day, slot.quarter.number), bytes);
        const auto is_shown = [&] {
            const auto &reading = bench.window().shown().reading;
            return reading && std::ranges::equal(reading->interval(reading->at(slot)), bytes);
        };
        must(loop.until(is_shown), "a change is not seen");
        loop.until_idle();
    });
}

void show_all_rows(MainWindow &window) {
    auto *tabs = window.findChild<QTabWidget *>();
    for (int at = 0; tabs && at < tabs->count(); ++at) {
        if (tabs->tabText(at) == words(Word::tab_rows, Tongue::english)) {
            tabs->setCurrentIndex(at);
            return Loop().until_idle();
        }
    }
    fail("there is no screen of all rows");
}

Measured exporting(int runs, const made::Folder &day) {
    Bench bench({.by_events = false, .glance_ms = 0});
    bench.open(day.path());
    show_all_rows(bench.window());
    QTemporaryDir out;
    const QString path = out.filePath("rows.csv");
    const Measured measured = measure(runs, day.path(), [&](Loop &loop) {
        QFile::remove(path);
        bench.painted_after(loop, [&] { bench.window().export_to(path); });
        must(QFileInfo(path).size() > 1'000'000, "no export is written");
    });
    std::fprintf(stderr, "bench: the export has %lld bytes\n", QFileInfo(path).size());
    return measured;
}

// While nothing happens but glances at a month.
Measured resting(const made::Folder &month) {
    Bench bench({.by_events = true, .glance_ms = 800});
    bench.open(month.path());
    Measured measured;
    Loop loop;
    const double end = wall_ms() + 5'000;
    loop.until([&] { return wall_ms() > end; });
    measured.block_thread.all.push_back(loop.longest_thread_ms);
    measured.block_wall.all.push_back(loop.longest_wall_ms);
    return measured;
}

int runs_asked(int count, char **given) {
    const int runs = count > 1 ? QString(given[1]).toInt() : 11;
    must(runs > 0 && runs < static_cast<int>(quarters), "bench [RUNS], 1 to 95");
    return runs;
}

} // namespace

int main(int count, char **given) {
    QApplication application(count, given);
    set_typeface();
    const int runs = runs_asked(count, given);
    made::Folder day, month;
    make_days(day, 1);
    make_days(month, month_days);
    print_head();
    print("open a day of 96 × 256 rows", opening(runs, day));
    print("open a month of 31 × 96 × 256 rows", opening(runs, month));
    print("choose the next quarter (plain: that file alone)", choosing(runs, day));
    print("a file replaced in the day, until its figure is painted", changing(runs, day));
    print("export all rows of the day", exporting(runs, day));
    print("glances at a month, for 5 s", resting(month));
    return 0;
}
