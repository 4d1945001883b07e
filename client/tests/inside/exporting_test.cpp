// Export: everything is read again before a byte is written, and only what was shown is written.
#include "desk.h"
#include "screen_text.h"

#include <QFile>
#include <QTest>

using namespace client;

namespace {

QByteArray content(const QString &path) {
    QFile file(path);
    return file.open(QIODevice::ReadOnly) ? file.readAll() : QByteArray();
}

bool shows(Desk &desk, const QString &sentence) {
    return all_text(desk.window(), true).contains(sentence);
}

} // namespace

class ExportingTest : public QObject {
    Q_OBJECT

  private slots:
    void what_is_shown_is_written();
    void every_screen_has_its_own();
    void nothing_after_a_change();
    void nothing_into_the_folder_itself();
    void nothing_where_nothing_is_shown();
    void a_place_that_cannot_be_written();
    void whatever_is_thrown_is_told();

  private:
    QTemporaryDir out_;
};

void ExportingTest::what_is_shown_is_written() {
    Desk desk({.by_events = false, .glance_ms = 0});
    desk.open();
    const QString path = out_.filePath("day.csv");
    desk.window().export_to(path);
    QVERIFY(desk.waits_for_reading());
    QVERIFY(shows(desk, "Written: "));
    const QByteArray csv = content(path);
    QVERIFY(csv.startsWith("\xef\xbb\xbf"));
    QCOMPARE(csv.count("25000,250.00"), 4);
    QVERIFY(csv.contains("\r\n"));
}

void ExportingTest::every_screen_has_its_own() {
    Desk desk({.by_events = false, .glance_ms = 0});
    desk.open();
    QTest::keyClick(&desk.window(), Qt::Key_3, Qt::ControlModifier);
    desk.window().export_to(out_.filePath("rows.csv"));
    QVERIFY(desk.waits_for_reading());
    QCOMPARE(content(out_.filePath("rows.csv")).count("65000,650.00"),
             8); // row 2: its cap and what it pays, in 4 quarters
    QTest::keyClick(&desk.window(), Qt::Key_4, Qt::ControlModifier);
    desk.window().export_to(out_.filePath("files.csv"));
    QVERIFY(desk.waits_for_reading());
    for (unsigned quarter = 0; quarter < 4; ++quarter) {
        QVERIFY(content(out_.filePath("files.csv")).contains(Desk::name(quarter).c_str()));
    }
}

// Nobody has told the window of the change: the reading before the export finds it.
void ExportingTest::nothing_after_a_change() {
    Desk desk({.by_events = false, .glance_ms = 0});
    desk.open();
    made::write(desk.folder / Desk::name(1, "correction"), made::wind_corrected(Desk::slot(1), 6'000));
    const QString path = out_.filePath("changed.csv");
    desk.window().export_to(path);
    QVERIFY(desk.waits_for_reading());
    QVERIFY(shows(desk, "The files have changed since this was shown."));
    QVERIFY(!QFile::exists(path));
    QCOMPARE(desk.window().shown().reading->at(Desk::slot(1)).state, State::corrected);
    desk.window().export_to(path);
    QVERIFY(desk.waits_for_reading());
    QVERIFY(QFile::exists(path));
}

void ExportingTest::nothing_into_the_folder_itself() {
    Desk desk({.by_events = false, .glance_ms = 0});
    desk.open();
    const QString path = QString::fromStdString((desk.folder / "out.csv").native());
    desk.window().export_to(path);
    QVERIFY(desk.waits_for_reading());
    QVERIFY(shows(desk, "would lie in the folder that is shown"));
    QVERIFY(!QFile::exists(path));
}

void ExportingTest::nothing_where_nothing_is_shown() {
    Desk desk({.by_events = false, .glance_ms = 0});
    desk.open();
    std::filesystem::rename(desk.folder.path(), desk.folder.around() / "elsewhere");
    const QString path = out_.filePath("gone.csv");
    desk.window().export_to(path);
    QVERIFY(desk.waits_for_reading());
    QVERIFY(!QFile::exists(path));
    desk.window().export_to(path);
    QVERIFY(shows(desk, "There is nothing to export"));
    QVERIFY(!QFile::exists(path));
}

void ExportingTest::a_place_that_cannot_be_written() {
    Desk desk({.by_events = false, .glance_ms = 0});
    desk.open();
    desk.window().export_to(out_.filePath("not/there/day.csv"));
    QVERIFY(desk.waits_for_reading());
    QVERIFY(shows(desk, "Not written: "));
}

// A reading that speaks of a file it has not: looking for it throws what nobody has thought of.
void ExportingTest::whatever_is_thrown_is_told() {
    Desk desk({.by_events = false, .glance_ms = 0});
    desk.open();
    auto broken = std::make_shared<Reading>(*desk.window().shown().reading);
    broken->days.at(Desk::slot(1).day)[1].intervals = {999};
    Order order{.what = {Subject::day}, .path = out_.filePath("broken.csv"), .shown = desk.window().shown()};
    order.shown.reading = broken;
    const Said told = write_if_same(order, std::shared_ptr<const Reading>(broken), {});
    QCOMPARE(told.word, Word::export_failed);
    QVERIFY(!QFile::exists(order.path));
}

QTEST_MAIN(ExportingTest)
#include "exporting_test.moc"
