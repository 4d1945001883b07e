#include "day_screen.h"
#include "files_screen.h"
#include "quarter_pane.h"
#include "rows_screen.h"
#include "screen.h"
#include "status_line.h"
#include "top_bar.h"

namespace client {

namespace {

Screen *make_top(QWidget *parent, Wishes &wishes) {
    auto *top = new TopBar(parent);
    QObject::connect(top, &TopBar::open_asked, &wishes, &Wishes::folder_asked);
    QObject::connect(top, &TopBar::day_chosen, &wishes, &Wishes::day_chosen);
    QObject::connect(top, &TopBar::plant_chosen, &wishes, &Wishes::plant_chosen);
    QObject::connect(top, &TopBar::plant_unknown, &wishes, &Wishes::plant_unknown);
    QObject::connect(top, &TopBar::export_asked, &wishes, &Wishes::export_asked);
    QObject::connect(top, &TopBar::tongue_asked, &wishes, &Wishes::tongue_asked);
    QObject::connect(top, &TopBar::help_asked, &wishes, &Wishes::help_asked);
    return top;
}

Screen *make_status(QWidget *parent, Wishes &wishes) {
    auto *status = new StatusLine(parent);
    QObject::connect(status, &StatusLine::files_asked, &wishes, &Wishes::files_asked);
    return status;
}

Screen *make_day(QWidget *parent, Wishes &wishes) {
    auto *day = new DayScreen(parent);
    QObject::connect(day, &DayScreen::quarter_chosen, &wishes, &Wishes::quarter_chosen);
    QObject::connect(day, &DayScreen::quarter_opened, &wishes, &Wishes::quarter_opened);
    return day;
}

Screen *make_rows(QWidget *parent, Wishes &wishes) {
    auto *rows = new RowsScreen(parent);
    QObject::connect(rows, &RowsScreen::cell_chosen, &wishes, &Wishes::cell_chosen);
    return rows;
}

Screen *make_files(QWidget *parent, Wishes &wishes) {
    auto *files = new FilesScreen(parent);
    QObject::connect(files, &FilesScreen::slot_chosen, &wishes, &Wishes::slot_chosen);
    return files;
}

} // namespace

std::vector<Screen *> make_screens(Place place, QWidget *parent, Wishes &wishes) {
    switch (place) {
    case Place::above:
        return {make_top(parent, wishes), make_status(parent, wishes)};
    case Place::tab:
        return {make_day(parent, wishes), make_rows(parent, wishes), make_files(parent, wishes)};
    case Place::beside:
        break;
    }
    return {new QuarterPane(parent)};
}

} // namespace client
