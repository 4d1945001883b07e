// Reading in the background: every quarter is settled anew at every reading, a slow one leaves no figure and can be
// stopped, and the window goes on all the while. The engine here counts its calls and can be held up.
#include "desk.h"
#include "screen_text.h"
#include "view.h"

#include "wheatrudder.h"

#include <QFile>
#include <QLineEdit>
#include <QSignalSpy>
#include <QTest>
#include <QTimer>

#include <atomic>
#include <thread>

using namespace client;

namespace {

std::atomic<unsigned> calls = 0;
std::atomic<bool> is_held = false;

} // namespace

extern "C" {
std::uint64_t __real_wheatrudder_settle(const std::uint8_t *, std::size_t, const std::uint8_t *, std::size_t,
                                        std::uint8_t *, std::size_t);

std::uint64_t __wrap_wheatrudder_settle(const std::uint8_t *interval, std::size_t interval_length,
                                        const std::uint8_t *correction, std::size_t correction_length,
                                        std::uint8_t *statement, std::size_t statement_length) {
    ++calls;
    while (is_held) {
        std::this_thread::sleep_for(std::chrono::milliseconds(1));
    }
    return __real_wheatrudder_settle(interval, interval_length, correction, correction_length, statement,
                                     statement_length);
}
}

namespace {

// 256 rows: one in four sells regulation, the others pay.
std::vector<made::Entry> many_rows() {
    std::vector<made::Entry> rows;
    for (unsigned id = 1; id <= 256; ++id) {
        if (id % 4 == 0) {
            rows.push_back({id, 1, 300, 27'000 + id, 0, 1, 24'000, 200 + id % 100, 400 + id % 100});
        } else {
            rows.push_back({id, id % 4 == 1 ? 1u : 2u, 200, id % 4 == 1 ? 40'000 + id : 9'000 + id});
        }
    }
    return rows;
}

// Days of 96 quarters, each in a folder of its own.
void make_days(const made::Folder &folder, unsigned days) {
    const auto rows = many_rows();
    for (unsigned day = 0; day < days; ++day) {
        const auto path = folder / std::to_string(day);
        std::filesystem::create_directory(path);
        for (std::uint8_t quarter = 0; quarter < 96; ++quarter) {
            const Slot slot{{9'770 + day}, {quarter}};
            made::write(path / std::to_string(quarter), made::interval(slot, 1'300, rows, 200'000));
        }
    }
}

void open_and_wait(MainWindow &window, const std::filesystem::path &folder) {
    QSignalSpy taken(&window, &MainWindow::taken);
    window.open_folder(folder);
    QVERIFY(taken.wait(long_ms));
}

bool shows(Desk &desk, const QString &sentence) {
    return all_text(desk.window(), true).contains(sentence);
}

bool has_figures(Desk &desk) {
    return has_money(all_text(desk.window()));
}

// Begins a reading that does not come to its end until it is let go, and waits until it is under way.
void hold_a_reading(Desk &desk) {
    calls = 0;
    is_held = true;
    desk.window().read_again();
    QTRY_VERIFY_WITH_TIMEOUT(calls > 0, long_ms);
}

} // namespace

class ReaderTest : public QObject {
    Q_OBJECT

  private slots:
    void init() { is_held = false; }
    void cleanup() { is_held = false; }
    void every_quarter_at_every_reading();
    void slow_reading_leaves_no_figure();
    void stop_answers_and_nothing_begins_by_itself();
    void a_change_while_reading_is_read_too();
    void an_export_that_takes_long();
    void two_exports_while_busy();
    void an_export_that_another_folder_ends();
    void whatever_is_thrown_is_answered();
    void another_folder_while_one_is_read();
    void typing_outlives_a_refresh();
    void a_day_of_256_rows();
    void a_month_of_256_rows();
    void exports_of_a_month();
};

void ReaderTest::every_quarter_at_every_reading() {
    Desk desk({.by_events = false, .glance_ms = 0});
    made::write(desk.folder / Desk::name(1, "correction"), made::wind_corrected(Desk::slot(1), 6'000));
    for (int reading = 0; reading < 3; ++reading) {
        calls = 0;
        desk.open();
        // The corrected quarter is settled without its correction as well.
        QCOMPARE(calls.load(), 5u);
    }
}

void ReaderTest::slow_reading_leaves_no_figure() {
    Desk desk({.by_events = false, .glance_ms = 0});
    desk.open();
    QVERIFY(has_figures(desk));
    hold_a_reading(desk);
    QTRY_VERIFY_WITH_TIMEOUT(!has_figures(desk), long_ms);
    QVERIFY(desk.window().is_reading());
    QVERIFY(shows(desk, "Reading the folder again"));
    QVERIFY(shows(desk, "Stop"));
    is_held = false;
    QVERIFY(desk.waits_for_reading());
    QVERIFY(has_figures(desk));
}

void ReaderTest::stop_answers_and_nothing_begins_by_itself() {
    Desk desk;
    desk.open();
    hold_a_reading(desk);
    QTRY_VERIFY_WITH_TIMEOUT(shows(desk, "Reading the folder again"), long_ms);
    QTest::keyClick(&desk.window(), Qt::Key_Escape);
    QVERIFY(shows(desk, "Stopped. No figures are shown."));
    QVERIFY(!has_figures(desk));

    QSignalSpy taken(&desk.window(), &MainWindow::taken);
    made::write(desk.folder / Desk::name(5), made::interval(Desk::slot(5)));
    is_held = false;
    QTest::qWait(200); // what was held ends at the file at hand
    calls = 0;
    QTest::qWait(2'500);
    QCOMPARE(taken.count(), 0);
    QCOMPARE(calls.load(), 0u);
    QTest::keyClick(&desk.window(), Qt::Key_F5);
    QVERIFY(taken.wait(long_ms));
    QTRY_COMPARE_WITH_TIMEOUT(difference(desk.text(), desk.text_of_fresh_start()), QString(), long_ms);
}

void ReaderTest::a_change_while_reading_is_read_too() {
    Desk desk({.by_events = true, .glance_ms = 0});
    desk.open();
    hold_a_reading(desk);
    made::write(desk.folder / Desk::name(1), made::interval(Desk::slot(1), 1'000));
    is_held = false;
    QTRY_COMPARE_WITH_TIMEOUT(difference(desk.text(), desk.text_of_fresh_start()), QString(), long_ms);
}

// The screen is cleared meanwhile, but what was shown is what the new reading is held against.
void ReaderTest::an_export_that_takes_long() {
    Desk desk({.by_events = false, .glance_ms = 0});
    desk.open();
    QTemporaryDir out;
    is_held = true;
    desk.window().export_to(out.filePath("day.csv"));
    QTRY_VERIFY_WITH_TIMEOUT(!has_figures(desk), long_ms);
    QVERIFY(!QFile::exists(out.filePath("day.csv")));
    is_held = false;
    QVERIFY(desk.waits_for_reading());
    QVERIFY(shows(desk, "Written: "));
    QVERIFY(QFile::exists(out.filePath("day.csv")));
}

// Both wait for the reading that is under way, and both are written and told of.
void ReaderTest::two_exports_while_busy() {
    Desk desk({.by_events = false, .glance_ms = 0});
    desk.open();
    QTemporaryDir out;
    desk.window().read_again();
    desk.window().export_to(out.filePath("day.csv"));
    QTest::keyClick(&desk.window(), Qt::Key_3, Qt::ControlModifier);
    desk.window().export_to(out.filePath("rows.csv"));
    for (const QString name : {"day.csv", "rows.csv"}) {
        QTRY_VERIFY_WITH_TIMEOUT(shows(desk, "Written: ") && shows(desk, name), long_ms);
        QVERIFY(QFile::exists(out.filePath(name)));
    }
}

// Nobody waits for it any more, but it is told.
void ReaderTest::an_export_that_another_folder_ends() {
    Desk desk({.by_events = false, .glance_ms = 0});
    desk.open();
    QTemporaryDir out;
    made::Folder other;
    made::write(other / Desk::name(0), made::interval(Desk::slot(0)));
    is_held = true;
    desk.window().export_to(out.filePath("day.csv"));
    desk.window().open_folder(other.path());
    is_held = false;
    QVERIFY(desk.waits_for_reading());
    QVERIFY(has_figures(desk));
    QVERIFY(shows(desk, "It may not have been written."));
}

// On a thread where nobody catches it, it would end the program.
void ReaderTest::whatever_is_thrown_is_answered() {
    made::Folder folder;
    Reader reader(folder.path(), true);
    std::optional<Answer> answer;
    connect(&reader, &Reader::read_out, this, [&answer](const Answer &answered) { answer = answered; });
    reader.read(std::nullopt, [](const Outcome &, const std::stop_token &) -> Said { throw 7; });
    QTRY_VERIFY_WITH_TIMEOUT(answer.has_value(), long_ms);
    QVERIFY(std::holds_alternative<Gone>(answer->outcome));
    QCOMPARE(answer->told.size(), 1u);
    QVERIFY(!reader.is_busy());
}

// The first one's figures never stand under the other's title, and its answer is dropped.
void ReaderTest::another_folder_while_one_is_read() {
    Desk desk({.by_events = false, .glance_ms = 0});
    desk.open();
    const QString of_the_first = "1,000.00"; // four quarters
    QVERIFY(all_text(desk.window()).contains(of_the_first));
    made::Folder around;
    const auto other = around / "other";
    std::filesystem::create_directory(other);
    made::write(other / Desk::name(0), made::interval(Desk::slot(0), 1'000));
    bool is_mixed = false;
    QTimer often;
    connect(&often, &QTimer::timeout, this, [&] {
        is_mixed = is_mixed ||
                   (desk.window().windowTitle().startsWith("other") && all_text(desk.window()).contains(of_the_first));
    });
    often.start(1);
    hold_a_reading(desk);
    desk.window().open_folder(other);
    QVERIFY(desk.window().windowTitle().startsWith("other"));
    QVERIFY(!has_figures(desk));
    is_held = false;
    QTRY_VERIFY_WITH_TIMEOUT(has_figures(desk), long_ms);
    QTest::qWait(100);
    QVERIFY(!is_mixed);
    QCOMPARE(desk.window().shown().reading->folder, other);
    QVERIFY(!all_text(desk.window()).contains(of_the_first));
}

void ReaderTest::typing_outlives_a_refresh() {
    Desk desk({.by_events = true, .glance_ms = 0});
    desk.open();
    QTest::keyClick(&desk.window(), Qt::Key_F, Qt::ControlModifier);
    auto *line = desk.window().findChild<QLineEdit *>();
    QTest::keyClicks(line, "2");
    made::write(desk.folder / Desk::name(5), made::interval(Desk::slot(5)));
    QVERIFY(desk.waits_for_reading());
    QCOMPARE(line->text(), QString("2"));
    QVERIFY(line->hasFocus());
    QTest::keyClick(line, Qt::Key_Return);
    QCOMPARE(desk.window().shown().plant->number, 2);
}

void ReaderTest::a_day_of_256_rows() {
    Desk desk({.by_events = true, .glance_ms = 0});
    made::Folder day;
    make_days(day, 1);
    open_and_wait(desk.window(), day.path());
    QCOMPARE(arrived(*desk.window().shown().reading, {9'770}).settled, 96u);
}

void ReaderTest::a_month_of_256_rows() {
    Desk desk({.by_events = true, .glance_ms = 800});
    made::Folder month;
    make_days(month, 31);
    open_and_wait(desk.window(), month.path());
    QCOMPARE(desk.window().shown().reading->days.size(), 31u);
    QCOMPARE(*desk.window().shown().day, Day{9'800});
}

// A month's list of files and a day of all rows, which are the longest.
void ReaderTest::exports_of_a_month() {
    Desk desk({.by_events = false, .glance_ms = 0});
    made::Folder month;
    make_days(month, 31);
    desk.window().show();
    open_and_wait(desk.window(), month.path());
    QTemporaryDir out;
    for (const Qt::Key screen : {Qt::Key_3, Qt::Key_4}) {
        QTest::keyClick(&desk.window(), screen, Qt::ControlModifier);
        const QString path = out.filePath(QString::number(screen));
        desk.window().export_to(path);
        QVERIFY(desk.waits_for_reading());
        QVERIFY(shows(desk, "Written: "));
        QVERIFY(QFile(path).size() > 400'000);
    }
}

QTEST_MAIN(ReaderTest)
#include "reader_test.moc"
