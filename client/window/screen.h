// What everything is that shows something of a reading: the window has one list of these and knows none of them by
// name.
//
// A screen is a function of one reading. To be filled it is cleared first, here and not by who calls it, so nothing can
// pass from one reading to the next; one test over the list finds a screen whose clearing leaves something behind.
#pragma once

#include "exporting.h"

#include <QKeySequence>
#include <QWidget>

#include <optional>
#include <utility>
#include <vector>

namespace client {

class Screen {
  public:
    Screen() = default;
    Screen(const Screen &) = delete;
    Screen &operator=(const Screen &) = delete;
    virtual ~Screen() = default;

    // No figure is left; heads and names of what is there are in this tongue.
    void clear(Tongue tongue) {
        forget(tongue);
        clear_in_ = tongue;
    }
    // Shows a reading and what is chosen of it, and nothing of what was there before.
    void fill(const Shown &shown) {
        if (clear_in_ != shown.tongue) {
            clear(shown.tongue);
        }
        clear_in_.reset();
        show_reading(shown);
    }
    // Shows what is newly chosen of the reading that is shown: another quarter. Where nothing is shown there is nothing
    // to choose.
    void choose(const Shown &shown) {
        if (!clear_in_) {
            show_choice(shown);
        }
    }

    virtual QWidget &as_widget() = 0;
    // The name of its tab.
    virtual std::optional<Word> title() const { return std::nullopt; }
    // What brings it to the front and gives it the keys of the keyboard; none where only a pointer does.
    virtual QKeySequence keys() const { return {}; }
    virtual void take_keys() { as_widget().setFocus(Qt::ShortcutFocusReason); }
    // What of it is exported.
    virtual std::optional<Subject> exports() const { return std::nullopt; }
    // Whether the chosen quarter is read beside it.
    virtual bool has_quarters() const { return true; }

  private:
    virtual void forget(Tongue tongue) = 0;
    // Called with the screen cleared.
    virtual void show_reading(const Shown &shown) = 0;
    virtual void show_choice(const Shown &) {}

    std::optional<Tongue> clear_in_; // it is clear, in this tongue, and nothing was shown since
};

// Where in the window a screen stands: above all others, as one of the tabs, or beside the tabs that have quarters.
enum class Place { above, tab, beside };

// What a person wants, on whichever screen it was.
class Wishes : public QObject {
    Q_OBJECT

  signals:
    void day_chosen(client::Day day);
    void plant_chosen(client::RowId plant);
    // What was typed is no id and no name of the day.
    void plant_unknown(QString typed);
    void quarter_chosen(client::Quarter quarter);
    // Somebody wants to read why.
    void quarter_opened();
    void cell_chosen(client::RowId plant, client::Quarter quarter);
    void slot_chosen(client::Slot slot);
    void folder_asked();
    void files_asked();
    void export_asked();
    void tongue_asked();
    void help_asked();
};

// All screens of a place, in the order in which the keys go through them. Their parent owns them.
std::vector<Screen *> make_screens(Place place, QWidget *parent, Wishes &wishes);

} // namespace client
