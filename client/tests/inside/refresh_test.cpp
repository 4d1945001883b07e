// Nothing cached: whatever happens to the folder, the screen comes to what a fresh start would show.
// Each kind of change is tried alone, seen by events alone and by glances alone.
#include "desk.h"
#include "screen_text.h"

#include <QTest>

using namespace client;

namespace {

struct Happening {
    const char *name;
    std::function<void(Desk &)> happens;
};

void put_back_time(const std::filesystem::path &path, const Bytes &bytes) {
    const auto time = std::filesystem::last_write_time(path);
    made::write(path, bytes);
    std::filesystem::last_write_time(path, time);
}

const Happening kinds[] = {
    {"a correction dropped in",
     [](Desk &desk) {
         made::write(desk.folder / Desk::name(1, "correction"), made::wind_corrected(Desk::slot(1), 6'000));
     }},
    {"written over in place",
     [](Desk &desk) { made::write(desk.folder / Desk::name(1), made::interval(Desk::slot(1), 1'200)); }},
    {"replaced by renaming, by one without wind",
     [](Desk &desk) {
         made::replace(desk.folder / Desk::name(1), made::interval(Desk::slot(1), 1'300, made::rows_without_wind()));
     }},
    {"replaced by one with other terms",
     [](Desk &desk) {
         made::replace(desk.folder / Desk::name(1), made::stating(made::other_terms, made::interval(Desk::slot(1))));
     }},
    {"same length and time put back",
     [](Desk &desk) { put_back_time(desk.folder / Desk::name(1), made::interval(Desk::slot(1), 1'000)); }},
    {"removed", [](Desk &desk) { std::filesystem::remove(desk.folder / Desk::name(1)); }},
    {"a second file for a quarter",
     [](Desk &desk) { made::write(desk.folder / "another", made::interval(Desk::slot(1), 1'200)); }},
    {"a new subfolder with a file",
     [](Desk &desk) {
         std::filesystem::create_directory(desk.folder / "late");
         made::write(desk.folder / "late/q05", made::interval(Desk::slot(5)));
     }},
    {"names of plants",
     [](Desk &desk) {
         made::write(desk.folder / "plants.csv", {'3', ',', 'A', ',', 'B', '\n'});
     }},
};

const std::pair<const char *, Seeing> ways[] = {
    {"by events", {.by_events = true, .glance_ms = 0}},
    {"by glances", {.by_events = false, .glance_ms = 300}},
};

// Waits until the window says what a window says that is opened now; false if it never does.
bool becomes_fresh(Desk &desk) {
    QString apart;
    const auto is_fresh = [&] { return (apart = difference(desk.text(), desk.text_of_fresh_start())).isEmpty(); };
    if (!QTest::qWaitFor(is_fresh, long_ms)) {
        qWarning("%s", qPrintable(apart));
        return false;
    }
    return true;
}

} // namespace

class RefreshTest : public QObject {
    Q_OBJECT

  private slots:
    void every_change_alone_data();
    void every_change_alone();
    void the_same_file_again_and_again();
    void in_a_subfolder();
    void many_changes_mixed();
    void folder_renamed_away_and_back();
    void folder_that_may_not_be_read();
    void folder_emptied();
    void refused_correction_leaves_no_figure();
    void arriving_in_pieces();
};

void RefreshTest::every_change_alone_data() {
    QTest::addColumn<int>("kind");
    QTest::addColumn<int>("way");
    for (int way = 0; way < 2; ++way) {
        for (int kind = 0; kind < static_cast<int>(std::size(kinds)); ++kind) {
            QTest::addRow("%s, %s", kinds[kind].name, ways[way].first) << kind << way;
        }
    }
}

void RefreshTest::every_change_alone() {
    QFETCH(int, kind);
    QFETCH(int, way);
    Desk desk(ways[way].second);
    desk.open();
    const QString before = desk.text();
    QVERIFY(before.contains("250.00"));
    kinds[kind].happens(desk);
    QVERIFY(becomes_fresh(desk));
    QVERIFY(desk.text() != before);
}

// A file that is replaced by renaming is watched no longer, unless the paths are set again.
void RefreshTest::the_same_file_again_and_again() {
    Desk desk({.by_events = true, .glance_ms = 0});
    desk.open();
    for (unsigned tariff : {1'200u, 1'000u, 1'300u, 1'200u}) {
        made::replace(desk.folder / Desk::name(1), made::interval(Desk::slot(1), tariff));
        QVERIFY(becomes_fresh(desk));
        QTest::qWait(200); // a rename is heard of more than once
        made::write(desk.folder / Desk::name(1), made::interval(Desk::slot(1), tariff + 1));
        QVERIFY(becomes_fresh(desk));
    }
}

// A folder tells nothing of a file in its subfolder.
void RefreshTest::in_a_subfolder() {
    Desk desk({.by_events = true, .glance_ms = 0});
    std::filesystem::create_directory(desk.folder / "late");
    made::write(desk.folder / "late/q05", made::interval(Desk::slot(5)));
    desk.open();
    made::write(desk.folder / "late/q05", made::interval(Desk::slot(5), 1'000));
    QVERIFY(becomes_fresh(desk));
    made::write(desk.folder / "late/q06", made::interval(Desk::slot(6)));
    QVERIFY(becomes_fresh(desk));
}

void RefreshTest::many_changes_mixed() {
    Desk desk;
    desk.open();
    for (const Happening &kind : kinds) {
        if (std::string(kind.name) != "removed") {
            kind.happens(desk);
        }
    }
    QVERIFY(becomes_fresh(desk));
}

void RefreshTest::folder_renamed_away_and_back() {
    for (const auto &[name, seeing] : ways) {
        Desk desk(seeing);
        desk.open();
        const QString before = desk.text();
        std::filesystem::rename(desk.folder.path(), desk.folder.around() / "elsewhere");
        QVERIFY2(desk.waits_for_reading(), name);
        QVERIFY2(!has_money(all_text(desk.window())), name);
        QTRY_VERIFY2_WITH_TIMEOUT(all_text(desk.window(), true).contains("The folder cannot be read"), name, long_ms);
        std::filesystem::rename(desk.folder.around() / "elsewhere", desk.folder.path());
        QTRY_COMPARE_WITH_TIMEOUT(difference(desk.text(), before), QString(), long_ms);
    }
}

void RefreshTest::folder_that_may_not_be_read() {
    if (geteuid() == 0) {
        QVERIFY(seteuid(65'534) == 0);
    }
    {
        Desk desk;
        desk.open();
        std::filesystem::permissions(desk.folder.path(), std::filesystem::perms::none);
        QTRY_VERIFY_WITH_TIMEOUT(all_text(desk.window(), true).contains("The folder cannot be read"), long_ms);
        QVERIFY(!has_money(all_text(desk.window())));
    }
    if (getuid() == 0) {
        QVERIFY(seteuid(0) == 0);
    }
}

void RefreshTest::folder_emptied() {
    Desk desk;
    desk.open();
    for (unsigned quarter = 0; quarter < 4; ++quarter) {
        std::filesystem::remove(desk.folder / Desk::name(quarter));
    }
    QTRY_VERIFY_WITH_TIMEOUT(!has_money(all_text(desk.window())), long_ms);
    QTRY_VERIFY_WITH_TIMEOUT(all_text(desk.window(), true).contains("There is no interval file in this folder."),
                             long_ms);
    QVERIFY(!has_money(all_text(desk.window())));
}

// The correction names a row that is not there: what the quarter came to without it is not valid either.
void RefreshTest::refused_correction_leaves_no_figure() {
    Desk desk;
    for (unsigned quarter : {0u, 2u, 3u}) {
        std::filesystem::remove(desk.folder / Desk::name(quarter));
    }
    desk.open();
    QVERIFY(has_money(all_text(desk.window())));
    made::write(desk.folder / Desk::name(1, "correction"), made::correction(Desk::slot(1), {{753, 2, 100, 1'000}}));
    const auto refused = [&desk] { return all_text(desk.window(), true).contains("the correction is refused"); };
    QVERIFY(QTest::qWaitFor(refused, long_ms));
    QVERIFY(!desk.window().shown().reading->at(Desk::slot(1)).statement);
    QVERIFY(!all_text(desk.window()).contains("250.00"));
}

void RefreshTest::arriving_in_pieces() {
    Desk desk;
    desk.open();
    const Bytes whole = made::interval(Desk::slot(4));
    made::write(desk.folder / Desk::name(4), Bytes(whole.begin(), whole.begin() + 40));
    const auto is = [&desk](State state) {
        const auto &reading = desk.window().shown().reading;
        return reading && reading->at(Desk::slot(4)).state == state;
    };
    QTRY_VERIFY_WITH_TIMEOUT(is(State::arriving) || is(State::refused), long_ms);
    made::write(desk.folder / Desk::name(4), whole);
    QTRY_VERIFY_WITH_TIMEOUT(is(State::settled), long_ms);
    QVERIFY(becomes_fresh(desk));
}

QTEST_MAIN(RefreshTest)
#include "refresh_test.moc"
