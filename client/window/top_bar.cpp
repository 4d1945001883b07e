#include "top_bar.h"

#include "named.h"
#include "view.h"

#include <QComboBox>
#include <QCompleter>
#include <QHBoxLayout>
#include <QLabel>
#include <QLineEdit>
#include <QPushButton>
#include <QSignalBlocker>

namespace client {

namespace {

QString item_of(const Shown &shown, const Plant &plant) {
    const Said said(Word::plant_item,
                    {plant_name(*shown.reading, plant.id), Said(kind_word(plant.kind)), text(plant.capacity)});
    return words(said, shown.tongue);
}

// A plant is found by its name in the other tongue as well.
constexpr int other_name = Qt::UserRole + 1;

// A name and what it does, for the eye and for a screen reader.
void name(QWidget *widget, Word is, Word does, Tongue tongue) {
    widget->setAccessibleName(words(is, tongue));
    widget->setToolTip(words(does, tongue));
    widget->setAccessibleDescription(words(does, tongue));
}

void name(QPushButton *button, Word is, Word does, Tongue tongue) {
    button->setText(words(is, tongue));
    name(static_cast<QWidget *>(button), is, does, tongue);
}

QPushButton *button(QWidget *parent) {
    auto *made = new QPushButton(parent);
    made->setAutoDefault(false);
    return made;
}

// A name that is longer than its field is read from its front.
void show_front(QComboBox &choice) {
    choice.lineEdit()->setCursorPosition(0);
}

// A plant is found by any part of its line.
void make_searchable(QComboBox *plants) {
    plants->setEditable(true);
    plants->setInsertPolicy(QComboBox::NoInsert);
    plants->completer()->setCompletionMode(QCompleter::PopupCompletion);
    plants->completer()->setFilterMode(Qt::MatchContains);
    plants->completer()->setCaseSensitivity(Qt::CaseInsensitive);
}

} // namespace

TopBar::TopBar(QWidget *parent) : QWidget(parent) {
    open_ = button(this);
    day_label_ = new QLabel(this);
    day_ = new QComboBox(this);
    day_label_->setBuddy(day_);
    day_->setSizeAdjustPolicy(QComboBox::AdjustToContents);
    day_->setMinimumContentsLength(10);
    plant_label_ = new QLabel(this);
    plant_ = new QComboBox(this);
    plant_label_->setBuddy(plant_);
    make_searchable(plant_);
    plant_->setSizeAdjustPolicy(QComboBox::AdjustToMinimumContentsLengthWithIcon);
    plant_->setMinimumContentsLength(24);
    export_ = button(this);
    help_ = button(this);
    tongue_ = button(this);

    auto *line = new QHBoxLayout(this);
    line->setContentsMargins(0, 0, 0, 0);
    for (QWidget *widget : std::initializer_list<QWidget *>{open_, day_label_, day_, plant_label_}) {
        line->addWidget(widget);
    }
    line->addWidget(plant_, 1);
    for (QWidget *widget : std::initializer_list<QWidget *>{export_, help_, tongue_}) {
        line->addWidget(widget);
    }

    connect(open_, &QPushButton::clicked, this, &TopBar::open_asked);
    connect(export_, &QPushButton::clicked, this, &TopBar::export_asked);
    connect(tongue_, &QPushButton::clicked, this, &TopBar::tongue_asked);
    connect(help_, &QPushButton::clicked, this, &TopBar::help_asked);
    connect(day_, &QComboBox::activated, this, [this](int at) { emit day_chosen(Day{day_->itemData(at).toUInt()}); });
    connect(plant_, &QComboBox::activated, this, &TopBar::find_plant);
    connect(plant_->lineEdit(), &QLineEdit::returnPressed, this, &TopBar::find_plant);
}

void TopBar::name_all(Tongue tongue) {
    name(open_, Word::open, Word::open_what, tongue);
    day_label_->setText(words(Word::day, tongue));
    name(day_, Word::day, Word::day_what, tongue);
    plant_label_->setText(words(Word::plant, tongue));
    name(plant_, Word::plant, Word::plant_what, tongue);
    name(export_, Word::export_it, Word::export_what, tongue);
    name(help_, Word::help, Word::help_what, tongue);
    name(tongue_, Word::language, Word::language_what, tongue);
}

void TopBar::forget(Tongue tongue) {
    name_all(tongue);
    // What somebody is typing just now is no figure, and stays.
    const bool is_typing = plant_->lineEdit()->hasFocus() && plant_->lineEdit()->isModified();
    if (plant_->isEnabled()) {
        typed_ = is_typing ? plant_->currentText() : QString();
    }
    const QSignalBlocker quiet_day(day_), quiet_plant(plant_);
    day_->clear();
    plant_->clear();
    plant_->clearEditText();
    for (QWidget *widget : std::initializer_list<QWidget *>{day_, plant_, export_}) {
        widget->setEnabled(false);
    }
}

void TopBar::show_reading(const Shown &shown) {
    name_all(shown.tongue);
    offer_days(shown);
    offer_plants(shown);
    export_->setEnabled(true);
}

void TopBar::offer_days(const Shown &shown) {
    const QSignalBlocker quiet(day_);
    day_->clear();
    for (const auto &[day, read] : shown.reading->days) {
        day_->addItem(text(date(day)), day.number);
    }
    // A day whose files are gone is still the one that is shown.
    if (shown.day && !shown.reading->days.contains(*shown.day)) {
        day_->addItem(text(date(*shown.day)), shown.day->number);
    }
    day_->setCurrentIndex(shown.day ? day_->findData(shown.day->number) : -1);
    day_->setEnabled(day_->count() > 0);
}

void TopBar::offer_plants(const Shown &shown) {
    const QSignalBlocker quiet(plant_);
    plant_->clear();
    if (shown.day) {
        for (const Plant &plant : plants_of(*shown.reading, *shown.day)) {
            plant_->addItem(item_of(shown, plant), plant.id.number);
            const Tongue other = shown.tongue == Tongue::english ? Tongue::chinese : Tongue::english;
            plant_->setItemData(plant_->count() - 1, words(plant_name(*shown.reading, plant.id), other), other_name);
        }
    }
    const int at = shown.plant ? plant_->findData(shown.plant->number) : -1;
    plant_->setCurrentIndex(at);
    if (at < 0) {
        plant_->setEditText(shown.plant ? words(plant_name(*shown.reading, *shown.plant), shown.tongue) : QString());
    }
    show_front(*plant_);
    if (!typed_.isEmpty()) {
        plant_->setEditText(typed_);
        plant_->lineEdit()->setModified(true);
    }
    plant_->setEnabled(plant_->count() > 0);
}

void TopBar::take_keys() {
    plant_->setFocus(Qt::ShortcutFocusReason);
    plant_->lineEdit()->selectAll();
}

// An id that is typed, a line that is chosen, or else the first line that has what is typed in it.
void TopBar::find_plant() {
    const QString typed = plant_->currentText().trimmed();
    bool is_number = false;
    const uint id = typed.toUInt(&is_number);
    int at = is_number ? plant_->findData(id) : plant_->findText(typed, Qt::MatchFixedString);
    for (const int role : {int{Qt::DisplayRole}, other_name}) {
        if (at < 0 && !is_number && !typed.isEmpty()) {
            at = plant_->findData(typed, role, Qt::MatchContains);
        }
    }
    if (at < 0) {
        emit plant_unknown(typed);
        return;
    }
    plant_->setCurrentIndex(at);
    show_front(*plant_);
    plant_->lineEdit()->setModified(false);
    emit plant_chosen(RowId{static_cast<std::uint16_t>(plant_->itemData(at).toUInt())});
}

} // namespace client
