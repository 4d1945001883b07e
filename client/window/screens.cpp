#include "screens.h"

#include <QApplication>
#include <QFontMetrics>
#include <QTabWidget>

#include <algorithm>

namespace client {

// The keys go through widgets in the order in which they are made: the tabs' own before what lies in them.
Screens::Screens(std::vector<Screen *> above, Wishes &wishes, QWidget *parent)
    : QSplitter(Qt::Horizontal, parent), all_(std::move(above)) {
    tabs_ = new QTabWidget(this);
    addWidget(tabs_);
    for (Screen *screen : make_screens(Place::tab, tabs_, wishes)) {
        tabs_->addTab(&screen->as_widget(), {});
        all_.push_back(screen);
    }
    for (Screen *screen : make_screens(Place::beside, this, wishes)) {
        addWidget(&screen->as_widget());
        all_.push_back(screen);
    }
    setStretchFactor(0, 3);
    setStretchFactor(1, 2);
    setChildrenCollapsible(false);
    connect(tabs_, &QTabWidget::currentChanged, this, &Screens::place_beside);
}

bool Screens::is_tab(Screen &screen) const {
    return tabs_->indexOf(&screen.as_widget()) >= 0;
}

bool Screens::is_beside(Screen &screen) const {
    return indexOf(&screen.as_widget()) >= 0;
}

void Screens::clear(Tongue tongue) {
    for (Screen *screen : all_) {
        screen->clear(tongue);
        if (const auto title = screen->title()) {
            tabs_->setTabText(tabs_->indexOf(&screen->as_widget()), words(*title, tongue));
        }
    }
    tabs_->setAccessibleName(words(Word::tabs, tongue));
}

void Screens::fill(const Shown &shown) {
    for (Screen *screen : all_) {
        screen->fill(shown);
    }
}

void Screens::choose(const Shown &shown) {
    for (Screen *screen : all_) {
        screen->choose(shown);
    }
}

Screen &Screens::on_show() const {
    return **std::find_if(all_.begin(), all_.end(),
                          [&](Screen *screen) { return &screen->as_widget() == tabs_->currentWidget(); });
}

void Screens::open(Screen &screen) {
    if (is_tab(screen)) {
        tabs_->setCurrentWidget(&screen.as_widget());
    } else if (is_beside(screen) && !on_show().has_quarters()) {
        open_subject(Subject::day);
    }
    screen.take_keys();
}

void Screens::open_subject(Subject subject) {
    for (Screen *screen : all_) {
        if (screen->exports() == subject) {
            open(*screen);
        }
    }
}

void Screens::open_quarter() {
    for (Screen *screen : all_) {
        if (is_beside(*screen)) {
            open(*screen);
        }
    }
}

void Screens::place_beside() {
    waiting_tab_.reset();
    for (Screen *screen : all_) {
        if (is_beside(*screen)) {
            screen->as_widget().setVisible(on_show().has_quarters());
        }
    }
}

void Screens::settle_tab(bool has_day, bool is_opening) {
    if (has_day && waiting_tab_) {
        tabs_->setCurrentIndex(*std::exchange(waiting_tab_, std::nullopt));
    } else if (!has_day && is_opening && !waiting_tab_) {
        const int chosen = tabs_->currentIndex();
        open_subject(Subject::files);
        waiting_tab_ = chosen;
    }
}

void Screens::share_room(int wide) {
    const int beside =
        std::clamp(QFontMetrics(QApplication::font()).horizontalAdvance('0') * 60, wide * 2 / 5, wide / 2);
    setSizes({wide - beside, beside});
}

} // namespace client
