#include "main_window.h"

#include "choosing.h"
#include "help_dialog.h"
#include "look.h"
#include "message_page.h"
#include "names.h"
#include "progress_line.h"

#include <QApplication>
#include <QCloseEvent>
#include <QFileDialog>
#include <QLabel>
#include <QScreen>
#include <QShortcut>
#include <QStackedWidget>
#include <QStandardPaths>
#include <QVBoxLayout>

#include <algorithm>

namespace client {

MainWindow::MainWindow(Settings &settings, std::optional<std::filesystem::path> example, Seeing seeing)
    : settings_(settings), example_folder_(std::move(example)), session_(seeing) {
    shown_.tongue = settings_.tongue();
    shown_.plant = settings_.plant();
    dialogs_.speak(shown_.tongue);
    make_page();
    make_keys();
    connect_all();
    resize_letters(settings_.percent());
    // With room for the frame around it.
    resize(QSize(1'440, 900).boundedTo(screen()->availableSize() - QSize(10, 40)));
    restoreGeometry(settings_.place());
    show_session();
}

void MainWindow::make_page() {
    const std::vector<Screen *> above = make_screens(Place::above, this, wishes_);
    notices_ = plain_label(this);
    notices_->setTextInteractionFlags(Qt::TextSelectableByMouse | Qt::TextSelectableByKeyboard);
    progress_ = new ProgressLine(this);
    message_ = new MessagePage(this);
    screens_ = new Screens(above, wishes_, this);
    stack_ = new QStackedWidget(this);
    stack_->addWidget(message_);
    stack_->addWidget(screens_);

    auto *central = new QWidget(this);
    auto *page = new QVBoxLayout(central);
    for (Screen *screen : above) {
        page->addWidget(&screen->as_widget());
    }
    page->addWidget(notices_);
    page->addWidget(progress_);
    page->addWidget(stack_, 1);
    setCentralWidget(central);
}

void MainWindow::make_keys() {
    const auto on = [this](const QKeySequence &keys, auto act) {
        connect(new QShortcut(keys, this), &QShortcut::activated, this, act);
    };
    for (Screen *screen : screens_->all()) {
        if (!screen->keys().isEmpty()) {
            on(screen->keys(), [this, screen] { screens_->open(*screen); });
        }
    }
    on(Qt::CTRL | Qt::Key_O, [this] { ask_for_folder(); });
    on(Qt::CTRL | Qt::Key_E, [this] { ask_for_export(); });
    on(Qt::CTRL | Qt::Key_L, [this] { switch_tongue(); });
    on(Qt::CTRL | Qt::Key_PageUp, [this] { step_day(-1); });
    on(Qt::CTRL | Qt::Key_PageDown, [this] { step_day(1); });
    on(Qt::Key_F5, [this] { read_again(); });
    on(Qt::Key_F1, [this] { emit wishes_.help_asked(); });
    on(Qt::Key_Escape, [this] { go_back(); });
    on(Qt::CTRL | Qt::Key_Plus, [this] { resize_letters(settings_.percent() + 25); });
    on(Qt::CTRL | Qt::Key_Equal, [this] { resize_letters(settings_.percent() + 25); });
    on(Qt::CTRL | Qt::Key_Minus, [this] { resize_letters(settings_.percent() - 25); });
    on(Qt::CTRL | Qt::Key_0, [this] { resize_letters(100); });
}

void MainWindow::connect_all() {
    connect(&wishes_, &Wishes::day_chosen, this, &MainWindow::choose_day);
    connect(&wishes_, &Wishes::plant_chosen, this, &MainWindow::choose_plant);
    connect(&wishes_, &Wishes::plant_unknown, this, [this](const QString &typed) {
        session_.notify({Word::plant_unknown, {typed.toStdString()}});
    });
    connect(&wishes_, &Wishes::quarter_chosen, this, &MainWindow::choose_quarter);
    connect(&wishes_, &Wishes::quarter_opened, screens_, &Screens::open_quarter);
    connect(&wishes_, &Wishes::cell_chosen, this, [this](RowId plant, Quarter quarter) {
        shown_.quarter = quarter;
        choose_plant(plant);
    });
    connect(&wishes_, &Wishes::slot_chosen, this, [this](Slot slot) {
        shown_.quarter = slot.quarter;
        choose_day(slot.day);
        screens_->open_subject(Subject::day);
    });
    connect(&wishes_, &Wishes::folder_asked, this, &MainWindow::ask_for_folder);
    connect(&wishes_, &Wishes::files_asked, this, [this] { screens_->open_subject(Subject::files); });
    connect(&wishes_, &Wishes::export_asked, this, &MainWindow::ask_for_export);
    connect(&wishes_, &Wishes::tongue_asked, this, &MainWindow::switch_tongue);
    connect(&wishes_, &Wishes::help_asked, this, [this] { HelpDialog(shown_.tongue, this).exec(); });
    connect(message_, &MessagePage::open_asked, this, &MainWindow::ask_for_folder);
    connect(message_, &MessagePage::example_asked, this, [this] { open_folder(*example_folder_); });
    connect(progress_, &ProgressLine::stop_asked, this, &MainWindow::stop);

    connect(&session_, &Session::changed, this, &MainWindow::show_session);
    connect(&session_, &Session::noticed, this, &MainWindow::show_notices);
    connect(&session_, &Session::answered, this, [this] {
        keep_folder();
        emit taken();
    });
    connect(&session_, &Session::progressed, this,
            [this](int read, int of) { progress_->tell(read, of, shown_.tongue); });
}

// The folder.

void MainWindow::open_folder(const std::filesystem::path &folder) {
    shown_.day.reset();
    shown_.quarter.reset();
    is_opening_ = true;
    session_.open(folder);
    keep_folder();
}

// From the root, so that the next start finds it from wherever it is begun. Until the folder has answered it may not be
// known.
void MainWindow::keep_folder() {
    const auto &folder = session_.folder();
    if (folder && folder->is_absolute() && settings_.folder() != folder) {
        settings_.keep_folder(*folder);
    }
}

void MainWindow::read_again() {
    session_.read_again();
}

void MainWindow::stop() {
    session_.stop();
}

// Showing what the session says. Whatever a screen throws, no part of a reading stays.

void MainWindow::show_session() {
    shown_.reading = session_.reading();
    if (!shown_.reading) {
        say_instead();
        return;
    }
    try {
        settle_choices(shown_);
        session_.look_at(shown_.day);
        show_reading();
    } catch (...) {
        session_.give_up();
    }
}

void MainWindow::show_reading() {
    QWidget *focused = focusWidget(); // what is empty for a moment loses the keys
    clear_all();
    screens_->fill(shown_);
    screens_->settle_tab(shown_.day.has_value(), is_opening_);
    stack_->setCurrentWidget(screens_);
    give_keys_back(focused);
}

// A sentence in the place of all screens; no figure stays behind it.
void MainWindow::say_instead() {
    if (stack_->currentWidget() == screens_) {
        had_keys_ = focusWidget();
    }
    clear_all();
    const Said &said = session_.instead();
    const bool is_first_start = said.word == Word::welcome && example_folder_;
    message_->say(said, is_first_start, shown_.tongue);
    stack_->setCurrentWidget(message_);
    keys_went_to_ = focusWidget();
}

void MainWindow::clear_all() {
    const Tongue tongue = shown_.tongue;
    screens_->clear(tongue);
    message_->say(Word::reading, false, tongue);
    progress_->clear(tongue);
    const auto &folder = session_.folder();
    const Said title = folder ? Said(Word::title_of, {client::shown(folder->filename().native())}) : Said(Word::title);
    setWindowTitle(words(title, tongue));
    show_notices();
}

void MainWindow::show_notices() {
    QStringList sentences;
    for (const Said &said : session_.notices()) {
        sentences.append(words(said, shown_.tongue));
    }
    notices_->setText(sentences.join('\n'));
    notices_->setVisible(!sentences.isEmpty());
}

// The keys go back to what had them, unless somebody has moved them meanwhile; to the figures where it is gone.
void MainWindow::give_keys_back(QWidget *now) {
    const bool is_moved = now && now != keys_went_to_ && !message_->isAncestorOf(now);
    QWidget *had = is_moved || !had_keys_ ? now : had_keys_.data();
    const bool has_room = had && had->isVisible() && had->isEnabled();
    if (std::exchange(is_opening_, false) || !has_room) {
        screens_->on_show().take_keys();
    } else {
        had->setFocus();
    }
    had_keys_.clear();
    keys_went_to_.clear();
}

// Choosing.

void MainWindow::choose_day(Day day) {
    if (shown_.reading) {
        shown_.day = day;
        session_.forget_notices();
        show_session();
    }
}

void MainWindow::choose_plant(RowId plant) {
    if (shown_.reading) {
        shown_.plant = plant;
        settings_.keep_plant(plant);
        session_.forget_notices();
        show_session();
    }
}

void MainWindow::choose_quarter(Quarter quarter) {
    if (!shown_.reading || shown_.quarter == quarter) {
        return;
    }
    session_.forget_notices();
    shown_.quarter = quarter;
    try {
        screens_->choose(shown_);
    } catch (...) {
        session_.give_up();
    }
}

void MainWindow::step_day(int by) {
    if (const auto day = day_beside(shown_, by)) {
        choose_day(*day);
    }
}

void MainWindow::go_back() {
    if (!shown_.reading && session_.is_reading()) {
        stop();
    } else {
        screens_->on_show().take_keys();
    }
}

// Folder, export, tongue, size.

// The dialog looks at the folder that it begins in: not at one that may not answer.
void MainWindow::ask_for_folder() {
    const QString from = shown_.reading ? text_of(shown_.reading->folder)
                                        : QStandardPaths::writableLocation(QStandardPaths::HomeLocation);
    const QString chosen = QFileDialog::getExistingDirectory(this, words(Word::open, shown_.tongue), from);
    if (!chosen.isEmpty()) {
        open_folder(path_of(chosen));
    }
}

// What is exported is what was on the screen when it was asked for, also if something else comes while a name is
// chosen.
void MainWindow::ask_for_export() {
    const Shown asked = shown_;
    const auto subject = screens_->on_show().exports();
    if (!subject || !has_content(asked, {*subject})) {
        session_.notify(Word::export_none);
        return;
    }
    const QString folder = QStandardPaths::writableLocation(QStandardPaths::DocumentsLocation);
    const QString chosen = QFileDialog::getSaveFileName(this, words(Word::export_it, shown_.tongue),
                                                        folder + "/" + name_of(asked, {*subject}), "CSV (*.csv)");
    if (!chosen.isEmpty()) {
        begin_export({{*subject}, chosen, asked});
    }
}

void MainWindow::export_to(const QString &path) {
    begin_export({{screens_->on_show().exports().value_or(Subject::day)}, path, shown_});
}

void MainWindow::begin_export(const Order &order) {
    if (has_content(order.shown, order.what)) {
        session_.write(order);
    } else {
        session_.notify(Word::export_none);
    }
}

void MainWindow::switch_tongue() {
    shown_.tongue = shown_.tongue == Tongue::english ? Tongue::chinese : Tongue::english;
    settings_.keep_tongue(shown_.tongue);
    dialogs_.speak(shown_.tongue);
    show_session();
}

void MainWindow::resize_letters(int percent) {
    const int within = std::clamp(percent, 100, 300);
    settings_.keep_percent(within);
    static const double plain_size = QApplication::font().pointSizeF();
    QFont font = QApplication::font();
    font.setPointSizeF(plain_size * within / 100);
    QApplication::setFont(font);
    screens_->share_room(width());
}

void MainWindow::showEvent(QShowEvent *event) {
    QMainWindow::showEvent(event);
    screens_->share_room(width());
}

void MainWindow::closeEvent(QCloseEvent *event) {
    settings_.keep_place(saveGeometry());
    QMainWindow::closeEvent(event);
}

} // namespace client
