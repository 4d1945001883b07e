// All screens in their places: tabs with the quarter beside them, and what stands above. Everything that is done to
// screens is done over their one list.
#pragma once

#include "screen.h"

#include <QSplitter>

class QTabWidget;

namespace client {

class Screens : public QSplitter {
    Q_OBJECT

  public:
    // Those that stand above are there already, for the window to place.
    Screens(std::vector<Screen *> above, Wishes &wishes, QWidget *parent);

    void clear(Tongue tongue);
    void fill(const Shown &shown);
    void choose(const Shown &shown);

    // The tab that is to be seen.
    Screen &on_show() const;
    // Brings a screen to the front, and it takes the keys.
    void open(Screen &screen);
    void open_subject(Subject subject);
    void open_quarter();
    // A folder that has no day when it is opened has a list of files all the same. What was on show before comes back
    // with the first day, unless somebody has chosen something else.
    void settle_tab(bool has_day, bool is_opening);
    // The quarter gets two fifths of the width, or up to a half where its sentences need it.
    void share_room(int wide);

    const std::vector<Screen *> &all() const { return all_; }

  private:
    bool is_tab(Screen &screen) const;
    bool is_beside(Screen &screen) const;
    void place_beside();

    std::vector<Screen *> all_;
    QTabWidget *tabs_ = nullptr;
    std::optional<int> waiting_tab_; // the one to go back to once the folder has a day
};

} // namespace client
