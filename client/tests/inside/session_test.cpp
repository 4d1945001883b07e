// What stays and what goes when the folder changes, goes away and comes back, and another is opened.
#include "desk.h"
#include "screen_text.h"

#include <QDialogButtonBox>
#include <QPushButton>
#include <QSignalSpy>
#include <QTabWidget>
#include <QTest>

using namespace client;

namespace {

QString showing(Desk &desk) {
    return all_text(desk.window(), true);
}

bool shows(Desk &desk, const QString &sentence) {
    return showing(desk).contains(sentence);
}

QString tab(Desk &desk) {
    const auto *tabs = desk.window().findChild<QTabWidget *>();
    return tabs->tabText(tabs->currentIndex());
}

void press(Desk &desk, Qt::Key key, Qt::KeyboardModifiers with = Qt::ControlModifier) {
    QTest::keyClick(&desk.window(), key, with);
}

QPushButton *button(const QWidget &window, const QString &says) {
    for (auto *one : window.findChildren<QPushButton *>()) {
        if (one->text().contains(says)) {
            return one;
        }
    }
    return nullptr;
}

void move_all(const std::filesystem::path &from, const std::filesystem::path &to) {
    std::filesystem::create_directory(to);
    for (unsigned quarter = 0; quarter < 4; ++quarter) {
        std::filesystem::rename(from / Desk::name(quarter), to / Desk::name(quarter));
    }
}

} // namespace

class SessionTest : public QObject {
    Q_OBJECT

  private slots:
    void a_sentence_goes_with_its_reading();
    void a_sentence_stays_where_nothing_has_changed();
    void a_day_whose_files_go_is_shown_as_empty();
    void a_folder_that_was_away_leaves_the_screen();
    void an_emptied_folder_leaves_the_screen();
    void a_folder_without_a_day_shows_its_files_first();
    void what_is_at_fault_is_a_button();
    void dialogs_speak_the_tongue_at_once();
    void a_folder_is_kept_from_its_root();
    void a_folder_that_is_away_is_not_asked_all_the_time();
};

void SessionTest::a_sentence_goes_with_its_reading() {
    Desk desk({.by_events = false, .glance_ms = 0});
    desk.open();
    QTemporaryDir out;
    desk.window().export_to(out.filePath("day.csv"));
    QTRY_VERIFY_WITH_TIMEOUT(shows(desk, "nothing had changed"), long_ms);
    made::write(desk.folder / Desk::name(1, "correction"), made::wind_corrected(Desk::slot(1), 6'000));
    desk.window().read_again();
    QVERIFY(desk.waits_for_reading());
    QVERIFY(has_money(showing(desk)));
    QVERIFY(!all_text(desk.window()).contains("nothing had changed"));
}

void SessionTest::a_sentence_stays_where_nothing_has_changed() {
    Desk desk({.by_events = false, .glance_ms = 0});
    desk.open();
    QTemporaryDir out;
    desk.window().export_to(out.filePath("day.csv"));
    QTRY_VERIFY_WITH_TIMEOUT(shows(desk, "nothing had changed"), long_ms);
    desk.window().read_again();
    QVERIFY(desk.waits_for_reading());
    press(desk, Qt::Key_L);
    press(desk, Qt::Key_L);
    QVERIFY(shows(desk, "nothing had changed"));
    desk.window().choose_quarter(Quarter{2}); // somebody has gone on
    QVERIFY(!shows(desk, "nothing had changed"));
}

// Not the other day in its place.
void SessionTest::a_day_whose_files_go_is_shown_as_empty() {
    Desk desk({.by_events = false, .glance_ms = 0});
    made::write(desk.folder / "next day", made::interval({{9'801}, {7}}));
    desk.open();
    QCOMPARE(*desk.window().shown().day, Day{9'800});
    desk.window().choose_day({9'801});
    QVERIFY(shows(desk, "250.00"));
    std::filesystem::remove(desk.folder / "next day");
    desk.window().read_again();
    QVERIFY(desk.waits_for_reading());
    QCOMPARE(*desk.window().shown().day, Day{9'801});
    QVERIFY(shows(desk, "2026-11-01"));
    QVERIFY(shows(desk, "0 of 96"));
    QVERIFY2(!has_money(showing(desk)), qPrintable(showing(desk)));
    press(desk, Qt::Key_PageUp);
    QCOMPARE(*desk.window().shown().day, Day{9'800});
    QVERIFY(shows(desk, "250.00"));
}

void SessionTest::a_folder_that_was_away_leaves_the_screen() {
    Desk desk({.by_events = false, .glance_ms = 0});
    desk.open();
    for (const Qt::Key key : {Qt::Key_1, Qt::Key_3, Qt::Key_4}) {
        press(desk, key);
        const QString before = tab(desk);
        const QWidget *keys = desk.window().focusWidget();
        std::filesystem::rename(desk.folder.path(), desk.folder.around() / "elsewhere");
        desk.window().read_again();
        QVERIFY(desk.waits_for_reading());
        QVERIFY(shows(desk, "The folder cannot be read"));
        std::filesystem::rename(desk.folder.around() / "elsewhere", desk.folder.path());
        desk.window().read_again();
        QVERIFY(desk.waits_for_reading());
        QVERIFY(desk.window().shown().reading);
        QCOMPARE(tab(desk), before);
        QCOMPARE(desk.window().focusWidget(), keys);
    }
    // What cannot be chosen meanwhile gets the keys back too.
    press(desk, Qt::Key_F);
    const QWidget *plant = desk.window().focusWidget();
    std::filesystem::rename(desk.folder.path(), desk.folder.around() / "elsewhere");
    desk.window().read_again();
    QVERIFY(desk.waits_for_reading());
    QVERIFY(desk.window().focusWidget() != plant);
    std::filesystem::rename(desk.folder.around() / "elsewhere", desk.folder.path());
    desk.window().read_again();
    QVERIFY(desk.waits_for_reading());
    QCOMPARE(desk.window().focusWidget(), plant);
}

void SessionTest::an_emptied_folder_leaves_the_screen() {
    Desk desk({.by_events = false, .glance_ms = 0});
    desk.open();
    press(desk, Qt::Key_3);
    const QString before = tab(desk);
    move_all(desk.folder.path(), desk.folder.around() / "elsewhere");
    desk.window().read_again();
    QVERIFY(desk.waits_for_reading());
    QVERIFY(shows(desk, "There is no interval file in this folder."));
    QVERIFY(!has_money(all_text(desk.window())));
    move_all(desk.folder.around() / "elsewhere", desk.folder.path());
    desk.window().read_again();
    QVERIFY(desk.waits_for_reading());
    QCOMPARE(tab(desk), before);
    QVERIFY(shows(desk, "650.00"));
    QVERIFY(!shows(desk, "There is no interval file in this folder."));
}

void SessionTest::a_folder_without_a_day_shows_its_files_first() {
    Desk desk({.by_events = false, .glance_ms = 0});
    move_all(desk.folder.path(), desk.folder.around() / "elsewhere");
    made::write(desk.folder / "note.txt", {'h', 'i'});
    desk.open();
    QCOMPARE(tab(desk), QString("Files"));
    QVERIFY(shows(desk, "There is no interval file in this folder."));
    move_all(desk.folder.around() / "elsewhere", desk.folder.path());
    desk.window().read_again();
    QVERIFY(desk.waits_for_reading());
    QCOMPARE(tab(desk), QString("Day"));
}

void SessionTest::what_is_at_fault_is_a_button() {
    Desk desk({.by_events = false, .glance_ms = 0});
    made::write(desk.folder / "empty", {});
    made::write(desk.folder / "empty too", {});
    desk.open();
    QPushButton *faults = button(desk.window(), "2 files are at fault");
    QVERIFY(faults && faults->isVisible());
    QVERIFY(!faults->isFlat());
    faults->click();
    QCOMPARE(tab(desk), QString("Files"));
}

void SessionTest::dialogs_speak_the_tongue_at_once() {
    Desk desk({.by_events = false, .glance_ms = 0});
    desk.open();
    const auto cancel = [] {
        return QDialogButtonBox(QDialogButtonBox::Cancel).button(QDialogButtonBox::Cancel)->text();
    };
    const QString english = cancel();
    QVERIFY(english.contains("Cancel"));
    press(desk, Qt::Key_L);
    QCOMPARE(cancel(), QString("取消"));
    press(desk, Qt::Key_L);
    QCOMPARE(cancel(), english);
}

// Whatever folder the program was begun in.
void SessionTest::a_folder_is_kept_from_its_root() {
    Desk desk({.by_events = false, .glance_ms = 0});
    const auto before = std::filesystem::current_path();
    std::filesystem::current_path(desk.folder.around());
    desk.window().open_folder("files");
    QVERIFY(desk.waits_for_reading());
    std::filesystem::current_path(before);
    QVERIFY(desk.window().shown().reading);
    QCOMPARE(Settings(desk.settings_file()).folder(), std::optional(desk.folder.path()));
}

// What is not there cannot be watched either, which is no reason to look again at once, over and over.
void SessionTest::a_folder_that_is_away_is_not_asked_all_the_time() {
    // The next glance comes long after the test.
    Desk desk({.by_events = true, .glance_ms = 600'000});
    QSignalSpy taken(&desk.window(), &MainWindow::taken);
    desk.window().show();
    desk.window().open_folder(desk.folder / "nowhere");
    QTRY_VERIFY_WITH_TIMEOUT(shows(desk, "The folder cannot be read"), long_ms);
    QTest::qWait(1'000);
    // Once because it was opened, and once because what lies around it was not watched before.
    QVERIFY2(taken.count() <= 2, qPrintable(QString::number(taken.count())));
}

QTEST_MAIN(SessionTest)
#include "session_test.moc"
