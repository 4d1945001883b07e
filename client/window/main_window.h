// The window: what is chosen, and what is shown of the session's reading.
//
// A reading comes in one step: every screen of the list is cleared, hidden ones too, and then filled from the new
// reading alone. Where there is no reading, a sentence stands in the place of all screens.
#pragma once

#include "dialog_tongue.h"
#include "screens.h"
#include "session.h"
#include "settings.h"

#include <QMainWindow>
#include <QPointer>

class QLabel;
class QStackedWidget;

namespace client {

class MessagePage;
class ProgressLine;

class MainWindow : public QMainWindow {
    Q_OBJECT

  public:
    MainWindow(Settings &settings, std::optional<std::filesystem::path> example, Seeing seeing = {});

    void open_folder(const std::filesystem::path &folder);
    void read_again();
    // Reads the folder again and writes the screen that is shown, if nothing has changed since it was.
    void export_to(const QString &path);
    void stop();

    void choose_day(Day day);
    void choose_plant(RowId plant);
    void choose_quarter(Quarter quarter);

    bool is_reading() const { return session_.is_reading(); }
    const Shown &shown() const { return shown_; }

  signals:
    // Everything is on the screen that a reading brought, or the sentence that there is none.
    void taken();

  protected:
    void closeEvent(QCloseEvent *event) override;
    void showEvent(QShowEvent *event) override;

  private:
    void make_page();
    void make_keys();
    void connect_all();

    void show_session();
    void show_reading();
    void say_instead();
    void clear_all();
    void show_notices();
    void give_keys_back(QWidget *now);

    void step_day(int by);
    void go_back();

    void ask_for_folder();
    void ask_for_export();
    void begin_export(const Order &order);
    void keep_folder();
    void switch_tongue();
    void resize_letters(int percent);

    Settings &settings_;
    std::optional<std::filesystem::path> example_folder_;
    Shown shown_;
    Session session_;
    Wishes wishes_;
    DialogTongue dialogs_;
    bool is_opening_ = false; // the first reading of a folder: the keys go to its figures
    // What had the keys when a sentence took the place of all screens, and what has got them by that.
    QPointer<QWidget> had_keys_, keys_went_to_;

    QLabel *notices_ = nullptr;
    ProgressLine *progress_ = nullptr;
    QStackedWidget *stack_ = nullptr;
    MessagePage *message_ = nullptr;
    Screens *screens_ = nullptr;
};

} // namespace client
