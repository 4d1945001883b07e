// A share that is slow or does not answer: no figure stands that nobody can vouch for, another folder opens meanwhile,
// the window closes at once, and its thread never makes a call that may have to wait.
#include "desk.h"
#include "program.h"
#include "screen_text.h"
#include "slow_disk.h"

#include <QApplication>
#include <QProcess>
#include <QSignalSpy>
#include <QTest>
#include <QTimer>

#include <cstdlib>
#include <string_view>

using namespace client;

namespace {

// Far longer than any test waits: whatever comes while a call stalls did not wait for it.
constexpr int stalled_ms = 600'000;
constexpr int slow_ms = 3;

bool is_stalled() {
    return slow_disk::begun() > slow_disk::ended();
}

bool has_figures(const QWidget &window) {
    return has_money(all_text(window));
}

// While it lives the folder is slow, and only the window may be at work in the main thread.
class Slowly {
  public:
    Slowly(const made::Folder &folder, int ms) {
        slow_disk::slow(folder.path().native(), ms);
        slow_disk::count_main_thread(true);
    }
    ~Slowly() {
        slow_disk::count_main_thread(false);
        slow_disk::slow("", 0);
    }
};

void make_day(const made::Folder &folder) {
    for (std::uint8_t quarter = 0; quarter < 96; ++quarter) {
        made::write(folder / std::to_string(quarter), made::interval({{9'800}, {quarter}}));
    }
}

// What a person does in the program that is started: once there are figures the share stalls, and once they are gone
// the window is closed.
void use_program() {
    auto *often = new QTimer(qApp);
    QObject::connect(often, &QTimer::timeout, qApp, [has_stalled = false]() mutable {
        for (QWidget *window : QApplication::topLevelWidgets()) {
            auto *main = qobject_cast<MainWindow *>(window);
            if (!main) {
                continue;
            }
            if (!has_stalled && has_figures(*main)) {
                slow_disk::slow(std::getenv("SLOW_FOLDER"), stalled_ms);
                has_stalled = true;
            } else if (has_stalled && is_stalled() && !has_figures(*main)) {
                main->close();
            }
        }
    });
    often->start(20);
}

} // namespace

class StalledTest : public QObject {
    Q_OBJECT

  private slots:
    void cleanup();
    void calls_are_slowed_down();
    void a_stall_leaves_no_figures_data();
    void a_stall_leaves_no_figures();
    void a_stalled_first_reading();
    void stopping_and_reading_again();
    void a_slow_day_is_read_in_the_end();
    void a_slow_glance_is_followed_by_a_reading();
    void the_program_ends_while_a_call_stalls();
};

void StalledTest::cleanup() {
    QVERIFY2(slow_disk::by_main_thread() == 0, slow_disk::first_by_main_thread().c_str());
}

// Else this would try nothing.
void StalledTest::calls_are_slowed_down() {
    made::Folder folder;
    make_day(folder);
    const int before = slow_disk::ended();
    slow_disk::slow(folder.path().native(), 1);
    slow_disk::count_main_thread(true);
    const Outcome outcome = read_folder(folder.path());
    slow_disk::count_main_thread(false);
    slow_disk::slow("", 0);
    QCOMPARE(slow_disk::by_main_thread(), slow_disk::ended() - before);
    slow_disk::forget_main_thread();
    QVERIFY(std::holds_alternative<std::shared_ptr<const Reading>>(outcome));
    // A folder is opened and listed, and each file opened, looked at, read, and looked at again.
    QVERIFY2(slow_disk::ended() - before > 4 * 96, qPrintable(QString::number(slow_disk::ended() - before)));
}

void StalledTest::a_stall_leaves_no_figures_data() {
    QTest::addColumn<bool>("by_events");
    QTest::addColumn<bool>("something_happens");
    QTest::addRow("glance") << false << false;
    QTest::addRow("glance-with-events") << true << false;
    QTest::addRow("event") << true << true;
}

void StalledTest::a_stall_leaves_no_figures() {
    QFETCH(bool, by_events);
    QFETCH(bool, something_happens);
    Desk desk({.by_events = by_events, .glance_ms = 800});
    made::Folder other;
    made::write(other / Desk::name(0), made::interval(Desk::slot(0), 1'000));
    desk.open();
    QVERIFY(has_figures(desk.window()));
    if (something_happens) {
        made::write(desk.folder / Desk::name(1, "correction"), made::wind_corrected(Desk::slot(1), 6'000));
    }
    const Slowly slowly(desk.folder, stalled_ms);
    QVERIFY(QTest::qWaitFor([&] { return is_stalled() && !has_figures(desk.window()); }, long_ms));
    QVERIFY(all_text(desk.window(), true).contains("Reading the folder again"));
    QVERIFY(desk.window().is_reading());

    desk.window().open_folder(other.path());
    QVERIFY(!has_figures(desk.window()));
    QVERIFY(desk.waits_for_reading());
    QVERIFY(has_figures(desk.window()));
    QCOMPARE(desk.window().shown().reading->folder, other.path());
    desk.window().close();
    QVERIFY(is_stalled());
}

// Not even the first answer comes.
void StalledTest::a_stalled_first_reading() {
    Desk desk;
    const Slowly slowly(desk.folder, stalled_ms);
    desk.window().show();
    desk.window().open_folder(desk.folder.path());
    QTRY_VERIFY_WITH_TIMEOUT(is_stalled() && all_text(desk.window(), true).contains("Stop"), long_ms);
    QVERIFY(all_text(desk.window(), true).contains("Reading the folder again"));
    QVERIFY(!has_figures(desk.window()));
}

// Whoever reads again does not wait for what was stopped.
void StalledTest::stopping_and_reading_again() {
    Desk desk({.by_events = true, .glance_ms = 0});
    desk.open();
    const Slowly slowly(desk.folder, stalled_ms);
    desk.window().read_again();
    QTRY_VERIFY_WITH_TIMEOUT(is_stalled() && !has_figures(desk.window()), long_ms);
    desk.window().stop();
    QVERIFY(all_text(desk.window(), true).contains("Stopped. No figures are shown."));
    slow_disk::slow("", 0);
    desk.window().read_again();
    QVERIFY(desk.waits_for_reading());
    QVERIFY(has_figures(desk.window()));
}

void StalledTest::a_slow_day_is_read_in_the_end() {
    Desk desk({.by_events = true, .glance_ms = 0});
    make_day(desk.folder);
    desk.open();
    const Slowly slowly(desk.folder, slow_ms);
    desk.window().read_again();
    QTRY_VERIFY_WITH_TIMEOUT(!has_figures(desk.window()), long_ms);
    bool has_stood = false;
    QTimer often;
    connect(&often, &QTimer::timeout, this,
            [&] { has_stood = has_stood || (desk.window().is_reading() && has_figures(desk.window())); });
    often.start(1);
    QVERIFY(desk.waits_for_reading());
    QVERIFY(has_figures(desk.window()));
    QVERIFY(!has_stood);
}

// Figures that nobody could vouch for are not put back: others come, of a reading of their own.
void StalledTest::a_slow_glance_is_followed_by_a_reading() {
    Desk desk({.by_events = false, .glance_ms = 300});
    make_day(desk.folder);
    desk.open();
    const std::weak_ptr<const Reading> before = desk.window().shown().reading;
    const Slowly slowly(desk.folder, slow_ms);
    QTRY_VERIFY_WITH_TIMEOUT(!has_figures(desk.window()), long_ms);
    QVERIFY(!desk.window().shown().reading);
    QTRY_VERIFY_WITH_TIMEOUT(has_figures(desk.window()), long_ms);
    QVERIFY(desk.window().shown().reading != before.lock());
}

// The program in a process of its own, as main.cpp runs it.
void StalledTest::the_program_ends_while_a_call_stalls() {
    QTemporaryDir own;
    made::Folder folder;
    make_day(folder);
    slow_disk::share(own.filePath("state").toStdString());
    const Slowly slowly(folder, 0);
    QProcess program;
    QProcessEnvironment environment = QProcessEnvironment::systemEnvironment();
    environment.insert("SLOW_DISK", own.filePath("state"));
    environment.insert("SLOW_FOLDER", QString::fromStdString(folder.path().native()));
    environment.insert("XDG_CONFIG_HOME", own.path());
    program.setProcessEnvironment(environment);
    program.setProcessChannelMode(QProcess::ForwardedChannels);
    program.start(QApplication::applicationFilePath(), {"--program", QString::fromStdString(folder.path().native())});
    QVERIFY(program.waitForFinished(4 * long_ms));
    QCOMPARE(program.exitStatus(), QProcess::NormalExit);
    QCOMPARE(program.exitCode(), 0);
    QVERIFY(is_stalled()); // the call was under way, and never came back
}

int main(int count, char **words) {
    if (count > 1 && std::string_view(words[1]) == "--program") {
        qAddPreRoutine(use_program);
        std::quick_exit(run_program(count - 1, words + 1));
    }
    QApplication application(count, words);
    StalledTest test;
    return QTest::qExec(&test, count, words);
}

#include "stalled_test.moc"
