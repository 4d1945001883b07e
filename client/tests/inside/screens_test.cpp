// Keys, tongues, names for screen readers, sizes; and an explanation that does not come to the statement's fen.
#include "chart.h"
#include "chart_plan.h"
#include "day_model.h"
#include "desk.h"
#include "quarter_pane.h"
#include "rows_model.h"
#include "screen_text.h"

#include <QAbstractButton>
#include <QAbstractItemView>
#include <QAccessible>
#include <QComboBox>
#include <QFile>
#include <QLineEdit>
#include <QRegularExpression>
#include <QSignalSpy>
#include <QTest>

using namespace client;

namespace {

void press(Desk &desk, Qt::Key key, Qt::KeyboardModifiers with = Qt::NoModifier) {
    QWidget *focus = QApplication::focusWidget();
    QTest::keyClick(focus ? focus : &desk.window(), key, with);
}

unsigned quarter(Desk &desk) {
    return desk.window().shown().quarter.value_or(Quarter{255}).number;
}

QString showing(Desk &desk) {
    return all_text(desk.window(), true);
}

// Interval X under terms that it states.
void state_terms(Desk &desk, unsigned of) {
    made::write(desk.folder / Desk::name(of), made::stating(made::other_terms, made::interval(Desk::slot(of))));
}

// Interval X without wind: the thermal average rules.
void stop_wind(Desk &desk, unsigned of) {
    made::write(desk.folder / Desk::name(of), made::interval(Desk::slot(of), 1'300, made::rows_without_wind()));
}

// A reading with another statement of a quarter, and otherwise the same.
std::shared_ptr<const Reading> with_statement(const Reading &reading, Slot slot, void (*alter)(Bytes &)) {
    auto altered = std::make_shared<Reading>(reading);
    QuarterRead &quarter = altered->days.at(slot.day)[slot.quarter.number];
    Bytes bytes(quarter.statement->bytes().begin(), quarter.statement->bytes().end());
    alter(bytes);
    quarter.statement = Statement(bytes);
    return altered;
}

// One fen from row 3 to row 2.
void move_a_fen(Bytes &bytes) {
    const std::size_t head = states_terms(bytes) ? 49 : 40;
    const auto paid_of = [&](std::size_t line) { return head + 42 * line + 28; };
    ++bytes[paid_of(1)];
    --bytes[paid_of(2)];
}

void turn_average(Bytes &bytes) {
    bytes[states_terms(bytes) ? 48 : 39] ^= 1;
}

// What is done to a quarter's statement, a step that is told without it, and what is told then.
struct Altered {
    unsigned of;
    void (*alter)(Bytes &);
    const char *step, *told;
};

void has_all(const QString &text, const QStringList &parts) {
    for (const QString &part : parts) {
        QVERIFY2(text.contains(part), qPrintable(part));
    }
}

// Whether a chart has the mark of a quarter that the thermal average rules.
bool has_lid(Chart &chart, const PlantDay &day, int number) {
    const ChartPlan plan = plan_chart(day, chart.size(), chart.fontMetrics(), Tongue::english);
    const QImage image = chart.grab().toImage();
    const QRgb ink = chart.palette().color(QPalette::Text).rgb();
    return image.pixel(plan.lid(number).center()) == ink;
}

} // namespace

class ScreensTest : public QObject {
    Q_OBJECT

  private slots:
    void keys_choose_quarters();
    void keys_choose_screens();
    void plant_by_id_or_name();
    void tongues_are_switched_at_once();
    void everything_has_a_name();
    void figures_of_the_statement();
    void a_correction_says_before_and_now();
    void a_moved_fen_leaves_no_steps();
    void terms_that_ruled();
    void the_average_that_ruled();
    void no_bids_of_neighbours();
    void fits_small_windows_and_large_letters();
    void settings_hold_no_figure();
    void first_start_offers_the_example();
};

void ScreensTest::keys_choose_quarters() {
    Desk desk;
    desk.open();
    press(desk, Qt::Key_1, Qt::ControlModifier);
    press(desk, Qt::Key_Home);
    QCOMPARE(quarter(desk), 0u);
    QVERIFY(showing(desk).contains("00:00–00:15"));
    press(desk, Qt::Key_Right);
    press(desk, Qt::Key_Right);
    QCOMPARE(quarter(desk), 2u);
    press(desk, Qt::Key_Left);
    QCOMPARE(quarter(desk), 1u);
    press(desk, Qt::Key_PageDown);
    QCOMPARE(quarter(desk), 5u);
    QVERIFY(showing(desk).contains("No interval file for this quarter yet."));
    press(desk, Qt::Key_PageUp);
    QCOMPARE(quarter(desk), 1u);
    press(desk, Qt::Key_End);
    QCOMPARE(quarter(desk), 95u);
    press(desk, Qt::Key_Right);
    QCOMPARE(quarter(desk), 95u);
    press(desk, Qt::Key_D, Qt::ControlModifier);
    QTRY_COMPARE_WITH_TIMEOUT(quarter(desk), 0u, long_ms);
}

void ScreensTest::keys_choose_screens() {
    Desk desk;
    desk.open();
    press(desk, Qt::Key_4, Qt::ControlModifier);
    QVERIFY(showing(desk).contains("2026-10-31-q03.interval"));
    press(desk, Qt::Key_3, Qt::ControlModifier);
    QVERIFY(showing(desk).contains("650.00"));
    press(desk, Qt::Key_1, Qt::ControlModifier);
    press(desk, Qt::Key_Return);
    auto *pane = desk.window().findChild<QuarterPane *>();
    QVERIFY(pane == QApplication::focusWidget() || pane->isAncestorOf(QApplication::focusWidget()));
    press(desk, Qt::Key_C, Qt::ControlModifier | Qt::ShiftModifier);
    QVERIFY(pane->as_text().contains("Why do I owe this?"));
    press(desk, Qt::Key_Escape);
    QVERIFY(!pane->isAncestorOf(QApplication::focusWidget()));
}

void ScreensTest::plant_by_id_or_name() {
    Desk desk;
    const std::string names = "1,火电,Northern Power\n2,二号,Southern Power\n";
    made::write(desk.folder / "plants.csv", Bytes(names.begin(), names.end()));
    desk.open();
    const auto type = [&desk](const QString &text) {
        press(desk, Qt::Key_F, Qt::ControlModifier);
        desk.window().findChild<QLineEdit *>()->setText(text);
        QTest::keyClick(desk.window().findChild<QLineEdit *>(), Qt::Key_Return);
    };
    type("2");
    QCOMPARE(desk.window().shown().plant->number, 2);
    QVERIFY(showing(desk).contains("Southern Power"));
    type("northern");
    QCOMPARE(desk.window().shown().plant->number, 1);
    type("二号");
    QCOMPARE(desk.window().shown().plant->number, 2);
    type("northern");
    type("nobody of this name");
    QCOMPARE(desk.window().shown().plant->number, 1);
    QVERIFY(showing(desk).contains("nobody of this name"));
}

// Nothing of the other tongue stays, on hidden screens neither; what is left in Latin letters is names, units and
// marks.
void ScreensTest::tongues_are_switched_at_once() {
    Desk desk;
    made::write(desk.folder / Desk::name(1, "correction"), made::wind_corrected(Desk::slot(1), 6'000));
    made::write(desk.folder / "note.txt", {'h', 'i'});
    // Terms, and a thermal average that rules.
    const Bytes still = made::interval(Desk::slot(0), 1'300, made::rows_without_wind(11'000));
    made::write(desk.folder / Desk::name(0), made::stating(made::other_terms, still));
    desk.open();
    desk.window().choose_quarter({0});
    static const QRegularExpression chinese("[\\x{4e00}-\\x{9fff}]"), english("[a-z]{3,} [a-z]{2,}");
    press(desk, Qt::Key_L, Qt::ControlModifier);
    for (const QString &text : texts_of(desk.window())) {
        QVERIFY2(!english.match(text).hasMatch() || text.contains("Show English"), qPrintable(text));
    }
    press(desk, Qt::Key_L, Qt::ControlModifier);
    for (const QString &text : texts_of(desk.window())) {
        QVERIFY2(!chinese.match(text).hasMatch() || text.contains("中文"), qPrintable(text));
    }
    QCOMPARE(difference(desk.text(), desk.text_of_fresh_start()), QString());
}

void ScreensTest::everything_has_a_name() {
    Desk desk;
    made::write(desk.folder / Desk::name(0, "correction"), made::wind_corrected(Desk::slot(0), 6'000));
    desk.open();
    for (QWidget *widget : desk.window().findChildren<QWidget *>()) {
        const bool is_control = qobject_cast<QAbstractButton *>(widget) || qobject_cast<QComboBox *>(widget) ||
                                qobject_cast<QAbstractItemView *>(widget);
        if (!is_control || widget->focusPolicy() == Qt::NoFocus || !widget->isVisible()) {
            continue;
        }
        QAccessibleInterface *heard = QAccessible::queryAccessibleInterface(widget);
        QVERIFY(heard);
        QVERIFY2(!heard->text(QAccessible::Name).isEmpty(), widget->metaObject()->className());
    }
}

void ScreensTest::figures_of_the_statement() {
    Desk desk;
    desk.open();
    const QString text = showing(desk);
    QVERIFY(text.contains("pays 250.00 yuan"));
    QVERIFY(text.contains("Why do I owe this?"));
    QVERIFY(text.contains("1,000.00")); // four quarters of 250.00
    QVERIFY(text.contains("900.00"));
    QVERIFY(text.contains("325.00"));
    QVERIFY(text.contains("4 of 96"));
}

void ScreensTest::a_correction_says_before_and_now() {
    Desk desk;
    desk.open();
    made::write(desk.folder / Desk::name(0, "correction"), made::wind_corrected(Desk::slot(0), 6'000));
    QTRY_VERIFY_WITH_TIMEOUT(showing(desk).contains("No longer valid"), long_ms);
    const QString text = showing(desk);
    QVERIFY(text.contains("Meter reading of row 3 replaced: 5,000 → 6,000 kWh"));
    // 900.00 by 15,000 and 6,000 kWh: row 2 owes 642.85 and is no longer at its cap of 650.00.
    QVERIFY(text.contains("257.14"));
    QVERIFY(text.contains("No longer valid: pays 250.00 yuan. Now: pays 257.14 yuan."));
}

void ScreensTest::a_moved_fen_leaves_no_steps() {
    Desk desk;
    state_terms(desk, 1);
    stop_wind(desk, 2);
    desk.open();
    // What the statement says is 250.00 and, under the terms that quarter 1 states, 152.94: it counts. That the thermal
    // average rules is moved in quarters 0 and 2.
    for (const auto &[of, alter, step, told] :
         {Altered{0, move_a_fen, "Round 1", "249.99"}, Altered{1, move_a_fen, "states other terms", "152.93"},
          Altered{0, turn_average, "Round 1", "whether the thermal average"},
          Altered{2, turn_average, "average load", "whether the thermal average"}}) {
        Shown shown = desk.window().shown();
        shown.quarter = Desk::slot(of).quarter;
        QuarterPane pane;
        pane.fill(shown);
        pane.resize(500, 700);
        pane.show();
        QVERIFY(all_text(pane, true).contains(step));
        shown.reading = with_statement(*shown.reading, Desk::slot(of), alter);
        pane.fill(shown);
        QVERIFY(all_text(pane, true).contains("does not come to the same figures"));
        QVERIFY(!all_text(pane).contains(step));
        QVERIFY(pane.as_text().isEmpty());
        QVERIFY(all_text(pane, true).contains(told));
    }
}

// By hand: 650.00 yuan by 16,250 kWh of row 2 and 5,000 of row 3, which is 152.94 yuan for row 3.
void ScreensTest::terms_that_ruled() {
    Desk desk;
    state_terms(desk, 1);
    desk.open();
    auto *pane = desk.window().findChild<QuarterPane *>();
    const QStringList names{"Baseline, % of full load", "Bids allowed in tier 1, yuan for each kWh",
                            "Bids allowed in tier 2, yuan for each kWh"};
    desk.window().choose_quarter({0});
    has_all(all_text(*pane, true), names + QStringList{"rules as issued", "0.100 to 0.320", "0.320 to 0.750"});
    QVERIFY(!all_text(desk.window()).contains("states other terms"));
    desk.window().choose_quarter({1});
    has_all(all_text(*pane, true),
            names + QStringList{"stated in the interval file", "0.150 to 0.300", "0.350 to 0.650", "pays 152.94 yuan",
                                "interval file with stated terms"});
    const QString sentence =
        "For this quarter the interval file states other terms than the rules as issued (Article 64): "
        "baseline 45 percent of full load; bids from 0.150 to 0.300 yuan for each kWh in tier 1, from "
        "0.350 to 0.650 in tier 2.";
    has_all(all_text(*pane, true), {sentence});
    has_all(pane->as_text(), {"1. " + sentence});
    press(desk, Qt::Key_1, Qt::ControlModifier);
    has_all(showing(desk), {"baseline 45 percent"}); // the note of the quarter
    press(desk, Qt::Key_4, Qt::ControlModifier);
    has_all(showing(desk), {"interval file with stated terms"});
    press(desk, Qt::Key_L, Qt::ControlModifier);
    has_all(showing(desk), {"时段文件（载明基准和限价）"});
    press(desk, Qt::Key_1, Qt::ControlModifier);
    has_all(showing(desk), {"基准 45%", "时段文件载明", "0.150 至 0.300", "第二档报价下限至上限"});
}

// In the pane, its steps and its text, in the chart, its tip and the table, in both tongues; and nowhere of a quarter
// in which there is wind.
void ScreensTest::the_average_that_ruled() {
    Desk desk;
    stop_wind(desk, 1);
    desk.open();
    desk.window().choose_plant({2});
    auto *pane = desk.window().findChild<QuarterPane *>();
    auto *chart = desk.window().findChild<Chart *>();
    const QString sentence = "No wind and no sun, and no thermal unit above its baseline: the thermal average ruled in "
                             "the baseline's place (Article 22).";
    desk.window().choose_quarter({0});
    has_all(all_text(*pane, true), {"Thermal average in the baseline's place", "no"});
    QVERIFY(!all_text(*pane).contains("thermal average ruled") && !all_text(*pane).contains("Article 22"));
    QCOMPARE(chart->told().section('.', 0, 0), QString("00:00–00:15: pays 650"));
    QVERIFY(!chart->told().contains("average"));
    desk.window().choose_quarter({1});
    has_all(all_text(*pane, true), {sentence, "Thermal average in the baseline's place", "yes", "pays 390.00 yuan",
                                    "That is not below the thermal average of 10,500 kWh"});
    has_all(pane->as_text(),
            {"1. No wind or solar farm produced anything in this quarter, the grid needed 3,000 kWh of regulation, "
             "and every thermal unit ran at its baseline of 50 percent or below it.",
             "2. All thermal units together produced 21,000 kWh and have 200 MW: their average load is "
             "42 percent.",
             "3. For this unit of 100 MW the thermal average is 21,000 kWh × 100 ÷ 200 = 10,500 kWh",
             "1 × (12,000 − 10,500) = 1,500 kWh"});
    has_all(chart->told(), {"pays 390.00 yuan; the thermal average ruled"});
    const PlantDay day = plant_day(desk.window().shown().reading, Desk::slot(0).day, {2});
    QVERIFY2(!has_lid(*chart, day, 0) && has_lid(*chart, day, 1) && !has_lid(*chart, day, 2), "the mark of the chart");
    const auto note_of = [model = desk.window().findChild<DayModel *>()](int number) {
        return model->index(number, DayModel::note_column()).data().toString();
    };
    QCOMPARE(note_of(0) + "|" + note_of(1) + "|" + note_of(2), QString("|thermal average|"));
    const auto head_of = [model = desk.window().findChild<RowsModel *>()](int column) {
        return model->headerData(column, Qt::Horizontal, Qt::AccessibleTextRole).toString();
    };
    QCOMPARE(head_of(0) + "|" + head_of(1), QString("00:00–00:15|00:15–00:30; the thermal average ruled"));
    // A plant that is not in the file, and a row that takes no part: the quarter is what it is.
    desk.window().choose_plant({77});
    has_all(all_text(*pane, true), {sentence, "yes"});
    has_all(chart->told(), {"the plant is not in this quarter's file; the thermal average ruled"});
    desk.window().choose_plant({2});
    press(desk, Qt::Key_L, Qt::ControlModifier);
    has_all(showing(desk),
            {"按平均负荷率", "临时调整为火电机组平均负荷率", "有偿调峰基准临时调整为火电机组平均负荷率（第二十二条）",
             "临时有偿调峰基准（10,500 kWh）"});
    has_all(chart->told(), {"按火电机组平均负荷率"});
}

// What may be bid is published, what somebody bid is not: neither bids nor minimums of row 1 stand anywhere.
void ScreensTest::no_bids_of_neighbours() {
    Desk desk;
    std::vector<made::Entry> rows = made::rows_of_x();
    rows[0].minimum = 8'123;
    rows.push_back({4, 1, 100, 20'000, 0, 1, 9'321, 287, 643}); // the dearest: called for nothing
    made::write(desk.folder / Desk::name(0),
                made::stating(made::other_terms, made::interval(Desk::slot(0), 1'300, rows, 2'000)));
    // And without wind, where what row 1 held back is told from the thermal average down.
    rows[1].metered = rows[3].metered = 11'000;
    rows[2].metered = 0;
    made::write(desk.folder / Desk::name(1),
                made::stating(made::other_terms, made::interval(Desk::slot(1), 1'300, rows, 2'000)));
    desk.open();
    for (const Quarter of : {Quarter{0}, Quarter{1}}) {
        desk.window().choose_quarter(of);
        QVERIFY(all_text(desk.window()).contains("stated in the interval file"));
        QCOMPARE(all_text(desk.window()).contains("the thermal average ruled"), of == Quarter{1});
        for (const char *secret : {"8,123", "9,321", "0.287", "0.643"}) {
            QVERIFY2(!all_text(desk.window()).contains(secret), secret);
        }
    }
}

void ScreensTest::fits_small_windows_and_large_letters() {
    Desk desk;
    desk.open();
    const QSize small(1'000, 660);
    QVERIFY2(desk.window().minimumSizeHint().width() <= small.width(),
             qPrintable(QString::number(desk.window().minimumSizeHint().width())));
    QVERIFY2(desk.window().minimumSizeHint().height() <= small.height(),
             qPrintable(QString::number(desk.window().minimumSizeHint().height())));
    for (int step = 0; step < 4; ++step) {
        press(desk, Qt::Key_Plus, Qt::ControlModifier);
    }
    QTest::qWait(50);
    const QSize large = desk.window().minimumSizeHint();
    press(desk, Qt::Key_0, Qt::ControlModifier);
    QVERIFY2(large.width() <= 1'440 && large.height() <= 900,
             qPrintable(QString("%1 x %2").arg(large.width()).arg(large.height())));
}

void ScreensTest::settings_hold_no_figure() {
    Desk desk;
    desk.open();
    press(desk, Qt::Key_L, Qt::ControlModifier);
    press(desk, Qt::Key_L, Qt::ControlModifier);
    desk.window().close();
    QSettings kept(desk.settings_file(), QSettings::IniFormat);
    QStringList keys = kept.allKeys();
    keys.sort();
    QCOMPARE(keys, QStringList({"folder", "percent", "place", "plant", "tongue"}));
    QFile file(desk.settings_file());
    QVERIFY(file.open(QIODevice::ReadOnly));
    QVERIFY(!file.readAll().contains("250"));
}

void ScreensTest::first_start_offers_the_example() {
    QTemporaryDir folder;
    Settings settings(folder.filePath("settings.ini"));
    settings.keep_tongue(Tongue::english);
    Desk desk;
    MainWindow window(settings, desk.folder.path());
    window.show();
    QVERIFY(all_text(window, true).contains("No folder is open."));
    QVERIFY(!has_money(all_text(window)));
    QSignalSpy taken(&window, &MainWindow::taken);
    for (auto *button : window.findChildren<QAbstractButton *>()) {
        if (button->text() == "Open the example day") {
            button->click();
        }
    }
    QVERIFY(taken.wait(long_ms));
    QVERIFY(all_text(window, true).contains("gets 900.00 yuan"));
}

QTEST_MAIN(ScreensTest)
#include "screens_test.moc"
