// While one file of the folder is not accounted for, every place that shows a figure names the file and says that no
// figure is final; and a statement of another time is told at the top.
#include "chart.h"
#include "day_screen.h"
#include "desk.h"
#include "files_screen.h"
#include "quarter_pane.h"
#include "screen_text.h"

#include <QFile>
#include <QSignalSpy>
#include <QTest>

using namespace client;

namespace {

const QString not_final = "so no figure is final.";

// The quarters that a desk does not have yet.
void make_whole(Desk &desk) {
    for (unsigned quarter = 4; quarter < quarters_of_day; ++quarter) {
        made::write(desk.folder / std::to_string(quarter), made::interval(Desk::slot(quarter)));
    }
}

// An hour ago: it is not still arriving.
void put_old(const std::filesystem::path &path, const Bytes &bytes) {
    made::write(path, bytes);
    std::filesystem::last_write_time(path, std::filesystem::file_time_type::clock::now() - std::chrono::hours(1));
}

// What is showing of a part of the window.
template <class Part>
QString text_in(Desk &desk, bool only_showing = true) {
    const auto *part = desk.window().findChild<Part *>();
    return part ? all_text(*part, only_showing) : QString("there is no such part");
}

// What the first record of an export says.
QString first_line_of_export(Desk &desk, Qt::Key screen) {
    QTest::keyClick(&desk.window(), screen, Qt::ControlModifier);
    QTemporaryDir out;
    const QString path = out.filePath("export.csv");
    QSignalSpy taken(&desk.window(), &MainWindow::taken);
    desk.window().export_to(path);
    QFile file(path);
    if (!taken.wait(30'000) || !file.open(QIODevice::ReadOnly)) {
        return "nothing was written";
    }
    return QString::fromUtf8(file.readLine());
}

} // namespace

class ReservationsTest : public QObject {
    Q_OBJECT

  private slots:
    void a_damaged_correction_is_told_everywhere();
    void the_quarter_that_it_is_named_for();
    void a_statement_of_another_time();
};

void ReservationsTest::a_damaged_correction_is_told_everywhere() {
    Desk desk;
    make_whole(desk);
    desk.open();
    QVERIFY(text_in<DayScreen>(desk).contains("Ready to book"));
    QVERIFY(!all_text(desk.window()).contains(not_final));

    const Bytes correction = made::wind_corrected(Desk::slot(1), 6'000);
    Bytes damaged = correction;
    damaged.front() = 'X';
    put_old(desk.folder / "late", damaged);
    QTRY_VERIFY_WITH_TIMEOUT(all_text(desk.window()).contains(not_final), 30'000);
    QVERIFY(text_in<DayScreen>(desk).contains("so far"));
    QVERIFY(!all_text(desk.window()).contains("Ready to book"));
    for (const QString &text :
         {text_in<DayScreen>(desk), text_in<QuarterPane>(desk), text_in<FilesScreen>(desk, false),
          desk.window().findChild<Chart *>()->told(), desk.window().findChild<QuarterPane *>()->as_text(),
          first_line_of_export(desk, Qt::Key_1), first_line_of_export(desk, Qt::Key_3),
          first_line_of_export(desk, Qt::Key_4)}) {
        QVERIFY2(text.contains("Not accounted for: late.") && text.contains(not_final), qPrintable(text.left(600)));
    }

    // Put right, it counts, and nothing is left of the reservation.
    put_old(desk.folder / "late", correction);
    QTRY_VERIFY_WITH_TIMEOUT(all_text(desk.window()).contains("Ready to book"), 30'000);
    QVERIFY(!all_text(desk.window()).contains(not_final));
}

void ReservationsTest::the_quarter_that_it_is_named_for() {
    Desk desk;
    const Bytes garbage(20, 7);
    put_old(desk.folder / Desk::name(1, "correction"), garbage);
    put_old(desk.folder / Desk::name(5), garbage);
    desk.open();
    const auto chosen = [&desk](std::uint8_t quarter) {
        desk.window().choose_quarter({quarter});
        return text_in<QuarterPane>(desk);
    };
    QVERIFY(chosen(1).contains("The name of 2026-10-31-q01.correction says that it is for this quarter"));
    QVERIFY(text_in<DayScreen>(desk).contains("not final: 2026-10-31-q01.correction cannot be used"));
    QVERIFY(chosen(5).contains("2026-10-31-q05.interval is named for it, and cannot be used."));
    QVERIFY(!chosen(6).contains("is named for it"));
    QVERIFY(!chosen(2).contains("is for this quarter"));
}

// Somebody may have booked it: both amounts stand at the top of the day, and in the quarter.
void ReservationsTest::a_statement_of_another_time() {
    Desk desk;
    make_whole(desk);
    const auto before = settle(made::interval(Desk::slot(1)), {});
    const View booked = std::get<Statement>(before).bytes();
    put_old(desk.folder / "booked", Bytes(booked.begin(), booked.end()));
    desk.open();
    QVERIFY(!all_text(desk.window()).contains("Somebody may have booked it."));
    made::write(desk.folder / Desk::name(1, "correction"), made::wind_corrected(Desk::slot(1), 6'000));
    QTRY_VERIFY_WITH_TIMEOUT(all_text(desk.window()).contains("Somebody may have booked it."), 30'000);
    const Fen now = desk.window().shown().reading->at(Desk::slot(1)).statement->of(Desk::wind)->net();
    const QString told = QString("booked is a statement of another time for 2026-10-31 00:15–00:30. By it Row 3 pays "
                                 "250.00 yuan; now it pays %1 yuan. Somebody may have booked it.")
                             .arg(QString::fromStdString(text(-now)));
    QVERIFY2(text_in<DayScreen>(desk).contains(told), qPrintable(text_in<DayScreen>(desk).left(600)));
    desk.window().choose_quarter({1});
    QVERIFY(text_in<QuarterPane>(desk).contains(told));
    desk.window().choose_quarter({2});
    QVERIFY(!text_in<QuarterPane>(desk).contains("statement of another time"));
    // A statement of another time keeps nobody from booking.
    QVERIFY(text_in<DayScreen>(desk).contains("Ready to book"));
}

QTEST_MAIN(ReservationsTest)
#include "reservations_test.moc"
