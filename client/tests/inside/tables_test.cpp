// The tables: figures that are whole, what is always in sight, keys and screen readers in it, and what a refresh leaves
// where it is.
#include "desk.h"
#include "painted_text.h"
#include "screen_text.h"
#include "typeface.h"

#include <QAccessible>
#include <QComboBox>
#include <QHeaderView>
#include <QImage>
#include <QLineEdit>
#include <QRegularExpression>
#include <QScrollBar>
#include <QSignalSpy>
#include <QTableView>
#include <QTest>

#include <algorithm>
#include <filesystem>
#include <optional>
#include <set>

using namespace client;

namespace {

constexpr QSize usual(1'440, 900), small(1'000, 660);

void press(QWidget &window, Qt::Key key, Qt::KeyboardModifiers with = Qt::NoModifier) {
    QWidget *focus = QApplication::focusWidget();
    QTest::keyClick(focus ? focus : &window, key, with);
}

// The example day in the place of the desk's own files.
void lay_out_example(Desk &desk) {
    for (unsigned quarter = 0; quarter < 4; ++quarter) {
        std::filesystem::remove(desk.folder / Desk::name(quarter));
    }
    const auto an_hour_ago = std::filesystem::file_time_type::clock::now() - std::chrono::hours(1);
    for (const auto &entry : std::filesystem::directory_iterator(EXAMPLE_DAY)) {
        const auto copy = desk.folder.path() / entry.path().filename();
        std::filesystem::copy_file(entry.path(), copy);
        std::filesystem::last_write_time(copy, an_hour_ago);
    }
}

// The largest units there are, at the highest bids: millions in a day; and a unit that is called, is reduced and owes a
// penalty.
std::vector<made::Entry> large_rows() {
    return {{1, 1, 2'000, 60'000, 0, 1, 50'000, 320, 750},
            {2, 1, 2'000, 550'000},
            {3, 2, 2'000, 500'000},
            {4, 1, 2'000, 200'000, 2, 1, 50'000, 300, 740}};
}

void lay_out_large(Desk &desk) {
    for (unsigned quarter = 0; quarter < quarters_of_day; ++quarter) {
        made::write(desk.folder / Desk::name(quarter),
                    made::interval(Desk::slot(quarter), 10'000, large_rows(), 900'000));
    }
}

void settle(Desk &desk, QSize size) {
    desk.window().resize(size);
    QTest::qWait(30);
}

// The example day as one of its wind farms sees it, and one of its quarters.
void open_example(Desk &desk, QSize size, std::optional<Quarter> quarter = std::nullopt) {
    lay_out_example(desk);
    desk.open();
    settle(desk, size);
    desk.window().choose_plant({101});
    if (quarter) {
        desk.window().choose_quarter(*quarter);
    }
}

QTableView *table_of(Desk &desk, const QString &name) {
    for (auto *table : desk.window().findChildren<QTableView *>()) {
        if (table->accessibleName() == name) {
            return table;
        }
    }
    return nullptr;
}

QTableView *day_table(Desk &desk) {
    return table_of(desk, "Quarters of the day");
}

QTableView *rows_table(Desk &desk) {
    return table_of(desk, "All rows of the day");
}

bool is_figure(const QModelIndex &index) {
    return index.data(Qt::TextAlignmentRole).toInt() & Qt::AlignRight;
}

// Where a cell is, in its table.
QRect place_of(const QTableView &table, const QModelIndex &index) {
    const QRect place = table.visualRect(index);
    return place.translated(table.viewport()->mapTo(&table, QPoint()));
}

// The figures that are on the screen, but not whole. How many there are to look at is counted.
QStringList cut_short(QTableView &table, int &seen) {
    const std::vector<Painted> painted = painted_places(table);
    const QRect cells = table.viewport()->rect();
    QStringList cut;
    for (int row = 0; row < table.model()->rowCount(); ++row) {
        for (int column = 0; column < table.model()->columnCount(); ++column) {
            const QModelIndex index = table.model()->index(row, column);
            const QRect place = table.visualRect(index);
            const QString figure = index.data().toString();
            // Scrolled away, to any side.
            const bool is_away = place.bottom() > cells.bottom() || place.left() > cells.right() ||
                                 (place.top() < 0 && !table.isRowHidden(row)) ||
                                 (place.left() < 0 && !table.isColumnHidden(column));
            if (!is_figure(index) || figure.isEmpty() || place.isEmpty() || is_away ||
                !table.rect().contains(place_of(table, index).center())) {
                continue;
            }
            ++seen;
            const QString read = painted_within(painted, place_of(table, index));
            if (read != figure && place.right() <= cells.right()) {
                cut << QString("row %1, column %2: “%3” for “%4”").arg(row).arg(column).arg(read, figure);
            }
        }
    }
    // The time of a quarter, and the heads of columns that are whole in sight.
    const bool has_times = table.accessibleName() == "Quarters of the day";
    for (int row = 0; row < table.model()->rowCount() && has_times; ++row) {
        const QRect place(0, table.rowViewportPosition(row) + table.viewport()->y(), table.viewport()->x(),
                          table.rowHeight(row));
        const QString time = table.model()->headerData(row, Qt::Vertical).toString();
        const bool is_seen = !table.isRowHidden(row) && table.viewport()->geometry().top() <= place.top() &&
                             table.viewport()->geometry().bottom() >= place.bottom();
        if (is_seen && !painted_within(painted, place).startsWith(time)) {
            cut << QString("“%1” for the time “%2”").arg(painted_within(painted, place), time);
        }
    }
    for (int column = 0; column < table.model()->columnCount(); ++column) {
        const QRect place(table.columnViewportPosition(column) + table.viewport()->x(), 0, table.columnWidth(column),
                          table.viewport()->y());
        const QString head = table.model()->headerData(column, Qt::Horizontal).toString();
        const bool is_seen = !table.isColumnHidden(column) && place.left() >= table.viewport()->x() &&
                             place.right() <= table.viewport()->geometry().right();
        const bool has_lines = head.contains('\n');
        for (const QString &line : head.split('\n')) {
            const bool is_read = std::any_of(painted.begin(), painted.end(), [&](const Painted &one) {
                return one.text == line && place.contains(one.place.center().toPoint()) &&
                       one.place.left() >= place.left() && one.place.right() <= place.right() + 1.0;
            });
            if (is_seen && has_lines && !is_read) {
                cut << QString("the head “%1”").arg(line);
            }
        }
    }
    // Nor is a part of a figure seen at the edge, in a sentence neither. A head is no figure.
    static const QRegularExpression digit("\\d");
    QString heads;
    for (int column = 0; column < table.model()->columnCount(); ++column) {
        heads += table.model()->headerData(column, Qt::Horizontal).toString();
    }
    for (const Painted &one : painted) {
        if (!one.is_whole && digit.match(one.text).hasMatch() && !heads.contains(one.text)) {
            cut << QString("“%1” goes over the edge").arg(one.text);
        }
    }
    return cut;
}

void verify_whole(Desk &desk, const QString &where) {
    for (const auto &[key, name] : {std::pair(Qt::Key_1, "day"), std::pair(Qt::Key_3, "rows")}) {
        press(desk.window(), key, Qt::ControlModifier);
        QTest::qWait(20);
        int seen = 0;
        QStringList cut;
        for (auto *table : desk.window().findChildren<QTableView *>()) {
            if (table->isVisible() && table->model()) {
                cut << cut_short(*table, seen);
            }
        }
        QVERIFY2(cut.isEmpty(), qPrintable(where + ", " + name + ": " + cut.join("; ")));
        QVERIFY2(seen > 10, qPrintable(where + ", " + name));
    }
}

// At every size of letters.
void verify_at_all_sizes(Desk &desk, const QString &what) {
    for (int percent = 100; percent <= 200 && !QTest::currentTestFailed(); percent += 25) {
        QTest::qWait(30);
        verify_whole(desk, QString("%1 at %2 percent").arg(what).arg(percent));
        press(desk.window(), Qt::Key_Plus, Qt::ControlModifier);
    }
    press(desk.window(), Qt::Key_0, Qt::ControlModifier);
}

bool is_in_sight(const QTableView &table, const QModelIndex &index) {
    const QRect place = place_of(table, index);
    return !place.isEmpty() && table.rect().contains(place);
}

int column_of(const QTableView &table, const QString &head) {
    for (int column = 0; column < table.model()->columnCount(); ++column) {
        if (table.model()->headerData(column, Qt::Horizontal).toString().startsWith(head)) {
            return column;
        }
    }
    return -1;
}

// The first row of the table whose head is this.
int row_of(const QTableView &table, const QString &head) {
    for (int row = 0; row < table.model()->rowCount(); ++row) {
        if (table.model()->headerData(row, Qt::Vertical).toString().startsWith(head)) {
            return row;
        }
    }
    return -1;
}

} // namespace

class TablesTest : public QObject {
    Q_OBJECT

  private slots:
    void initTestCase() { set_typeface(); }
    void figures_are_whole_in_the_example();
    void figures_are_whole_where_they_are_large();
    void the_net_amount_is_always_in_sight();
    void the_sums_are_always_in_sight();
    void keys_reach_the_sums();
    void the_pointer_reaches_what_stays_in_sight();
    void rows_stay_where_they_are();
    void another_quarter_is_brought_into_sight();
    void rows_have_sums();
    void a_quarter_without_a_statement_is_marked();
    void the_plant_shows_its_front();
    void what_is_not_final_is_told_apart();
};

void TablesTest::figures_are_whole_in_the_example() {
    Desk desk;
    lay_out_example(desk);
    desk.open();
    settle(desk, usual);
    for (const unsigned id : {101u, 310u, 640u}) {
        desk.window().choose_plant({static_cast<std::uint16_t>(id)});
        desk.window().choose_quarter({13});
        verify_at_all_sizes(desk, QString("row %1").arg(id));
        if (QTest::currentTestFailed()) {
            return;
        }
    }
    press(desk.window(), Qt::Key_L, Qt::ControlModifier);
    verify_at_all_sizes(desk, "in Chinese");
    settle(desk, small);
    verify_whole(desk, "in Chinese, in a small window");
}

void TablesTest::figures_are_whole_where_they_are_large() {
    Desk desk;
    lay_out_large(desk);
    desk.open();
    settle(desk, usual);
    QVERIFY(desk.window().shown().reading->at(Desk::slot(0)).statement->of({4})->penalty > Fen{10'000'00});
    for (const unsigned id : {1u, 2u, 4u}) {
        desk.window().choose_plant({static_cast<std::uint16_t>(id)});
        verify_at_all_sizes(desk, QString("row %1 of large amounts").arg(id));
        if (QTest::currentTestFailed()) {
            return;
        }
    }
}

void TablesTest::the_net_amount_is_always_in_sight() {
    Desk desk;
    lay_out_large(desk);
    desk.open();
    desk.window().choose_plant({4});
    for (const QSize size : {usual, small}) {
        settle(desk, size);
        press(desk.window(), Qt::Key_1, Qt::ControlModifier);
        QTableView &table = *day_table(desk);
        const QModelIndex net = table.model()->index(0, column_of(table, "Net"));
        table.verticalScrollBar()->setValue(0);
        QVERIFY(net.data().toString().contains('.'));
        for (const int across : {0, table.horizontalScrollBar()->maximum()}) {
            table.horizontalScrollBar()->setValue(across);
            QVERIFY2(is_in_sight(table, net),
                     qPrintable(QString("%1 wide, scrolled to %2").arg(size.width()).arg(across)));
            QCOMPARE(painted_within(painted_places(table), place_of(table, net)), net.data().toString());
        }
    }
}

void TablesTest::the_sums_are_always_in_sight() {
    Desk desk;
    lay_out_example(desk);
    desk.open();
    desk.window().choose_plant({101});
    for (const QSize size : {usual, small}) {
        settle(desk, size);
        QTableView &table = *day_table(desk);
        const int sums = row_of(table, "Sum");
        QVERIFY(sums >= 0);
        const QModelIndex net = table.model()->index(sums, column_of(table, "Net"));
        QCOMPARE(net.data().toString(), QString("−45,622.24"));
        for (const int down : {0, table.verticalScrollBar()->maximum() / 2, table.verticalScrollBar()->maximum()}) {
            table.verticalScrollBar()->setValue(down);
            QVERIFY(is_in_sight(table, net));
            const auto painted = painted_places(table);
            QCOMPARE(painted_within(painted, place_of(table, net)), net.data().toString());
            // With its name before it, and nothing of a quarter over it.
            const QRect line = place_of(table, net);
            QCOMPARE(painted_within(painted, QRect(0, line.top(), line.left(), line.height())), QString("Sum"));
        }
    }
}

void TablesTest::keys_reach_the_sums() {
    Desk desk;
    open_example(desk, usual, Quarter{0});
    QTableView &table = *day_table(desk);
    table.setFocus();
    const int sums = row_of(table, "Sum");
    press(desk.window(), Qt::Key_Up);
    QCOMPARE(table.currentIndex().row(), sums);
    // A screen reader finds the cell that has the keys, on the screen, with its figure.
    QAccessibleInterface *heard = QAccessible::queryAccessibleInterface(&table);
    QVERIFY(heard && heard->tableInterface());
    QAccessibleInterface *cell = heard->tableInterface()->cellAt(sums, column_of(table, "Net"));
    QVERIFY(cell);
    QCOMPARE(cell->text(QAccessible::Name), QString("−45,622.24"));
    QVERIFY(!cell->state().invisible);
    QVERIFY(cell->rect().isValid() && !cell->rect().isEmpty());
    QVERIFY(table.rect().contains(table.mapFromGlobal(cell->rect().center())));
    // Every figure of the line, from one end to the other, and back to the quarters.
    QStringList read;
    press(desk.window(), Qt::Key_Home);
    for (int step = 0; step < 20; ++step) {
        QCOMPARE(table.currentIndex().row(), sums);
        QVERIFY(is_in_sight(table, table.currentIndex()));
        read << table.currentIndex().data().toString();
        const QModelIndex before = table.currentIndex();
        press(desk.window(), Qt::Key_Right);
        if (table.currentIndex() == before) {
            break;
        }
    }
    QVERIFY(read.contains("−45,622.24"));
    QVERIFY2(read.size() > 4 && read.size() < 20, qPrintable(read.join('|')));
    press(desk.window(), Qt::Key_Down);
    QCOMPARE(table.currentIndex().row(), 0);
    QCOMPARE(desk.window().shown().quarter->number, 0);
}

void TablesTest::the_pointer_reaches_what_stays_in_sight() {
    Desk desk;
    open_example(desk, usual, Quarter{0});
    QTableView &table = *day_table(desk);
    table.verticalScrollBar()->setValue(0);
    const QModelIndex net = table.model()->index(2, column_of(table, "Net"));
    const QPoint at = place_of(table, net).center();
    QWidget *under = table.childAt(at);
    QVERIFY(under);
    QTest::mouseClick(under, Qt::LeftButton, {}, under->mapFrom(&table, at));
    QCOMPARE(desk.window().shown().quarter->number, 2);
}

void TablesTest::rows_stay_where_they_are() {
    Desk desk({.by_events = false, .glance_ms = 0});
    open_example(desk, small, Quarter{12});
    press(desk.window(), Qt::Key_3, Qt::ControlModifier);
    QTest::qWait(30);
    QTableView &table = *rows_table(desk);
    // Somebody reads on elsewhere: another cell, far from the chosen quarter.
    table.setFocus();
    for (int step = 0; step < 20; ++step) {
        press(desk.window(), Qt::Key_Right);
    }
    press(desk.window(), Qt::Key_Down);
    table.horizontalScrollBar()->setValue(40);
    QTest::qWait(10);
    const QModelIndex before = table.currentIndex();
    const int across = table.horizontalScrollBar()->value();
    QVERIFY(across > 0);
    QVERIFY(before.column() > 12);
    for (const bool is_hidden : {false, true, false}) {
        press(desk.window(), is_hidden ? Qt::Key_1 : Qt::Key_3, Qt::ControlModifier);
        desk.window().read_again();
        QVERIFY(desk.waits_for_reading());
        QTest::qWait(30);
        QCOMPARE(table.horizontalScrollBar()->value(), across);
        QCOMPARE(table.currentIndex().row(), before.row());
        QCOMPARE(table.currentIndex().column(), before.column());
    }
}

void TablesTest::another_quarter_is_brought_into_sight() {
    Desk desk({.by_events = false, .glance_ms = 0});
    open_example(desk, small);
    press(desk.window(), Qt::Key_3, Qt::ControlModifier);
    QTableView &table = *rows_table(desk);
    for (const unsigned quarter : {90u, 3u}) {
        desk.window().choose_quarter({static_cast<std::uint8_t>(quarter)});
        QTest::qWait(30);
        QCOMPARE(table.currentIndex().column(), static_cast<int>(quarter));
        QVERIFY(is_in_sight(table, table.currentIndex()));
    }
}

void TablesTest::rows_have_sums() {
    Desk desk;
    open_example(desk, small, Quarter{12});
    press(desk.window(), Qt::Key_3, Qt::ControlModifier);
    QTest::qWait(30);
    QTableView &table = *rows_table(desk);
    const int sums = column_of(table, "Sum");
    const int all = row_of(table, "All rows");
    const int plant = row_of(table, "101");
    QVERIFY(sums >= 0 && all >= 0 && plant >= 0);
    // The row's day comes to what its own screen says.
    const QModelIndex day = table.model()->index(plant, sums);
    QCOMPARE(day.data().toString(), QString("−45,622.24"));
    QVERIFY(day.data(Qt::AccessibleTextRole).toString().contains("93 quarters"));
    for (const int across : {0, table.horizontalScrollBar()->maximum()}) {
        table.horizontalScrollBar()->setValue(across);
        QVERIFY(is_in_sight(table, day));
        QCOMPARE(painted_within(painted_places(table), place_of(table, day)), day.data().toString());
    }
    // Payers pay what receivers keep: the nets of a quarter come to nothing.
    const QModelIndex quarter = table.model()->index(all, 12);
    QCOMPARE(quarter.data().toString(), QString("0.00"));
    table.scrollTo(table.model()->index(plant, 12));
    QVERIFY(is_in_sight(table, quarter));
    // The keys go there from the first quarter and from the first row.
    table.setFocus();
    table.setCurrentIndex(table.model()->index(0, 0));
    press(desk.window(), Qt::Key_Left);
    QCOMPARE(table.currentIndex(), table.model()->index(0, sums));
    press(desk.window(), Qt::Key_Up);
    QCOMPARE(table.currentIndex(), table.model()->index(all, sums));
    press(desk.window(), Qt::Key_Return); // opens nothing
    press(desk.window(), Qt::Key_Right);
    QCOMPARE(table.currentIndex(), table.model()->index(all, 0));
    QCOMPARE(desk.window().shown().quarter->number, 12);
    // Every quarter's line is the sum of its rows, and the corner that of all.
    auto *figures = table.parentWidget()->findChild<QComboBox *>();
    const auto fen = [](const QModelIndex &index) {
        return QString(index.data().toString()).remove(',').remove('.').replace("−", "-").toLongLong();
    };
    for (int figure = 0; figure < figures->count(); ++figure) {
        figures->setCurrentIndex(figure);
        const bool has_sum = !table.model()->index(all, sums).data().toString().isEmpty();
        QCOMPARE(is_in_sight(table, day), has_sum);
        if (!has_sum) {
            continue;
        }
        qint64 in_all = 0;
        for (int row = 0; row < all; ++row) {
            in_all += fen(table.model()->index(row, sums));
        }
        QCOMPARE(fen(table.model()->index(all, sums)), in_all);
        qint64 in_quarter = 0;
        for (int row = 0; row < all; ++row) {
            in_quarter += fen(table.model()->index(row, 12));
        }
        QCOMPARE(fen(quarter), in_quarter);
    }
}

void TablesTest::a_quarter_without_a_statement_is_marked() {
    Desk desk;
    open_example(desk, usual);
    press(desk.window(), Qt::Key_3, Qt::ControlModifier);
    QTableView &table = *rows_table(desk);
    constexpr int refused = 18, missing = 71;
    for (const auto &[column, why] : {std::pair(refused, "refused"), std::pair(missing, "No interval file")}) {
        desk.window().choose_quarter({static_cast<std::uint8_t>(column)});
        QTest::qWait(30);
        const QModelIndex cell = table.model()->index(2, column);
        QVERIFY(cell.data().toString().isEmpty());
        const QString said = cell.data(Qt::AccessibleTextRole).toString();
        QVERIFY2(said.contains(why, Qt::CaseInsensitive), qPrintable(said));
        QVERIFY(cell.data(Qt::ToolTipRole).toString().contains(why, Qt::CaseInsensitive));
        const QString head = table.model()->headerData(column, Qt::Horizontal, Qt::AccessibleTextRole).toString();
        QVERIFY2(head.contains(why, Qt::CaseInsensitive), qPrintable(head));
        QVERIFY(table.model()
                    ->headerData(column, Qt::Horizontal, Qt::ToolTipRole)
                    .toString()
                    .contains(why, Qt::CaseInsensitive));
        // Something is painted where another quarter's ground is plain, in the head's lower half too.
        const QImage picture = table.grab().toImage();
        const auto colours = [&picture](QRect place) {
            std::set<QRgb> found;
            for (int y = place.top(); y <= place.bottom(); ++y) {
                for (int x = place.left(); x <= place.right(); ++x) {
                    found.insert(picture.pixel(x, y));
                }
            }
            return found.size();
        };
        QVERIFY(colours(place_of(table, cell).adjusted(2, 2, -2, -2)) > 1);
        const QRect heads = table.horizontalHeader()->geometry();
        const int left = table.horizontalHeader()->sectionViewportPosition(column) + heads.left();
        QVERIFY(colours(QRect(left + 1, heads.top() + 1, 5, 20)) > 1);
    }
}

void TablesTest::the_plant_shows_its_front() {
    Desk desk({.by_events = false, .glance_ms = 0});
    // As long as a name may be.
    const std::string names = "2,二号,The Southern Power Plant With A Name Of Sixty-Four Letters No. 2\n"
                              "3,三号,The Northern Wind Farm With A Name That Has Sixty-Four Letters N\n";
    made::write(desk.folder / "plants.csv", Bytes(names.begin(), names.end()));
    desk.open();
    settle(desk, small);
    for (int step = 0; step < 4; ++step) {
        press(desk.window(), Qt::Key_Plus, Qt::ControlModifier);
    }
    auto *line = desk.window().findChild<QLineEdit *>();
    const auto is_at_front = [&] {
        return line->cursorPosition() == 0 && line->cursorPositionAt({3, line->height() / 2}) < 3;
    };
    QVERIFY2(line->fontMetrics().horizontalAdvance(line->text()) > line->width(), qPrintable(line->text()));
    QVERIFY(is_at_front());
    press(desk.window(), Qt::Key_F, Qt::ControlModifier);
    line->setText("southern");
    QTest::keyClick(line, Qt::Key_Return);
    QCOMPARE(desk.window().shown().plant->number, 2);
    QVERIFY(is_at_front());
    desk.window().read_again();
    QVERIFY(desk.waits_for_reading());
    QVERIFY(is_at_front());
    desk.window().choose_plant({3});
    QVERIFY(is_at_front());
    press(desk.window(), Qt::Key_L, Qt::ControlModifier);
    press(desk.window(), Qt::Key_L, Qt::ControlModifier);
    QVERIFY(is_at_front());
    press(desk.window(), Qt::Key_0, Qt::ControlModifier);
}

// A file that may be a correction of any quarter: no figure is final. A sign says so where the figure is, and all of
// the sentence can be read and heard, however narrow the column is.
void TablesTest::what_is_not_final_is_told_apart() {
    Desk desk({.by_events = false, .glance_ms = 0});
    desk.open();
    settle(desk, small);
    QTableView &table = *day_table(desk);
    const int net_column = column_of(table, "Net");
    const auto picture = [&](int row) {
        table.verticalScrollBar()->setValue(0);
        desk.window().choose_quarter({95});
        table.verticalScrollBar()->setValue(0);
        return table.grab(place_of(table, table.model()->index(row, net_column))).toImage();
    };
    const QImage final = picture(1);
    const std::string name = "2026-10-31-q01-sent-again-by-the-control-centre-on-the-first-of-november.correction";
    made::write(desk.folder / name, {'P', 'K', 1});
    desk.window().read_again();
    QVERIFY(desk.waits_for_reading());
    QTest::qWait(30);
    QVERIFY(picture(1) != final);
    for (const int row : {0, 1}) {
        const QModelIndex note = table.model()->index(row, column_of(table, "Note"));
        for (const int role : {int{Qt::ToolTipRole}, int{Qt::AccessibleTextRole}}) {
            const QString said = note.data(role).toString();
            QVERIFY2(said.contains(QString::fromStdString(name)) && said.contains("no figure"), qPrintable(said));
        }
    }
}

QTEST_MAIN(TablesTest)
#include "tables_test.moc"
