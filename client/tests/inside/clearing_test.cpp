// Nothing passes from one reading to the next: every screen of the list, filled with figures and cleared, says what a
// screen says that never was filled, and holds no reading. A screen that keeps something is found here, whichever it
// is.
#include "desk.h"
#include "screen.h"
#include "screen_text.h"

#include <QTest>

using namespace client;

namespace {

// The screens of a window that nobody sees.
struct Set {
    QWidget around;
    Wishes wishes;
    std::vector<Screen *> screens;

    Set() {
        for (const Place place : {Place::above, Place::tab, Place::beside}) {
            const auto made = make_screens(place, &around, wishes);
            screens.insert(screens.end(), made.begin(), made.end());
        }
    }
};

// A day with something of everything: a correction, a file at fault, one that is refused, names, several days.
void make_files(const made::Folder &folder) {
    for (unsigned quarter = 0; quarter < 4; ++quarter) {
        made::write(folder / Desk::name(quarter), made::interval(Desk::slot(quarter)));
    }
    made::write(folder / Desk::name(1, "correction"), made::wind_corrected(Desk::slot(1), 6'000));
    made::write(folder / Desk::name(2, "correction"), made::correction(Desk::slot(2), {{753, 2, 100, 1'000}}));
    made::write(folder / "another day", made::interval({{9'801}, {0}}));
    made::write(folder / "empty", {});
    const std::string names = "3,风电,Western Wind\n";
    made::write(folder / "plants.csv", Bytes(names.begin(), names.end()));
}

Shown shown_of(const made::Folder &folder, Tongue tongue, unsigned quarter) {
    const Outcome outcome = read_folder(folder.path());
    return {.reading = std::get<std::shared_ptr<const Reading>>(outcome),
            .day = Day{9'800},
            .plant = Desk::wind,
            .quarter = Desk::slot(quarter).quarter,
            .tongue = tongue};
}

} // namespace

class ClearingTest : public QObject {
    Q_OBJECT

  private slots:
    void the_list_is_whole();
    void a_cleared_screen_says_what_a_fresh_one_says_data();
    void a_cleared_screen_says_what_a_fresh_one_says();
    void a_screen_is_cleared_before_it_is_filled();
};

// What the window has of a reading, it has through the list: with all screens of it cleared no figure is left.
void ClearingTest::the_list_is_whole() {
    Desk desk({.by_events = false, .glance_ms = 0});
    desk.open();
    QVERIFY(has_money(all_text(desk.window())));
    int found = 0;
    for (QWidget *widget : desk.window().findChildren<QWidget *>()) {
        if (auto *screen = dynamic_cast<Screen *>(widget)) {
            screen->clear(Tongue::english);
            ++found;
        }
    }
    Set set;
    QCOMPARE(static_cast<std::size_t>(found), set.screens.size());
    QVERIFY(!has_money(all_text(desk.window())));
}

void ClearingTest::a_cleared_screen_says_what_a_fresh_one_says_data() {
    QTest::addColumn<std::size_t>("at");
    QTest::addColumn<bool>("in_chinese");
    const Set set;
    for (std::size_t at = 0; at < set.screens.size(); ++at) {
        const char *name = set.screens[at]->as_widget().metaObject()->className();
        QTest::addRow("%s in English", name) << at << false;
        QTest::addRow("%s in Chinese", name) << at << true;
    }
}

void ClearingTest::a_cleared_screen_says_what_a_fresh_one_says() {
    QFETCH(std::size_t, at);
    QFETCH(bool, in_chinese);
    const Tongue tongue = in_chinese ? Tongue::chinese : Tongue::english;
    made::Folder folder;
    make_files(folder);
    Set filled, fresh;
    Screen &screen = *filled.screens.at(at), &never_filled = *fresh.screens.at(at);
    Shown shown = shown_of(folder, tongue, 1);
    screen.clear(tongue);
    never_filled.clear(tongue);
    const QString due = all_text(never_filled.as_widget());
    for (const unsigned quarter : {1u, 0u, 2u}) {
        screen.fill(shown);
        shown.quarter = Desk::slot(quarter).quarter;
        screen.choose(shown);
        QApplication::processEvents();
        QVERIFY2(all_text(screen.as_widget()) != due, "it shows nothing of the reading");
    }
    const std::weak_ptr<const Reading> reading = shown.reading;
    shown.reading.reset();
    screen.clear(tongue);
    QCOMPARE(difference(all_text(screen.as_widget()), due), QString());
    // What is painted, and said by no widget, comes from a reading that is held.
    QVERIFY2(reading.expired(), "it holds the reading still");
    QApplication::processEvents();
    QCOMPARE(difference(all_text(screen.as_widget()), due), QString());
}

// Whoever fills it, it is the same as one that was cleared.
void ClearingTest::a_screen_is_cleared_before_it_is_filled() {
    made::Folder folder;
    make_files(folder);
    const Shown first = shown_of(folder, Tongue::english, 1);
    std::filesystem::remove(folder / Desk::name(1, "correction"));
    const Shown second = shown_of(folder, Tongue::chinese, 3);
    Set twice, once;
    for (std::size_t at = 0; at < twice.screens.size(); ++at) {
        twice.screens[at]->fill(first);
        twice.screens[at]->fill(second);
        once.screens[at]->fill(second);
        QCOMPARE(difference(all_text(twice.screens[at]->as_widget()), all_text(once.screens[at]->as_widget())),
                 QString());
    }
}

QTEST_MAIN(ClearingTest)
#include "clearing_test.moc"
