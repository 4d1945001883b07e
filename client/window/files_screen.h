// The folder's files, those at fault first: name, what each is, its quarter, what is to be said of it, what to do.
#pragma once

#include "screen.h"

class QLabel;

namespace client {

class FilesModel;
class FilesTable;

class FilesScreen : public QWidget, public Screen {
    Q_OBJECT

  public:
    explicit FilesScreen(QWidget *parent = nullptr);

    QWidget &as_widget() override { return *this; }
    std::optional<Word> title() const override { return Word::tab_files; }
    QKeySequence keys() const override { return Qt::CTRL | Qt::Key_4; }
    void take_keys() override;
    std::optional<Subject> exports() const override { return Subject::files; }
    bool has_quarters() const override { return false; }

  signals:
    // A file of a quarter was opened: that day and quarter.
    void slot_chosen(client::Slot slot);

  protected:
    void changeEvent(QEvent *event) override;

  private:
    void forget(Tongue tongue) override;
    void show_reading(const Shown &shown) override;

    void set_margins();

    QLabel *summary_ = nullptr;
    FilesTable *table_ = nullptr;
    FilesModel *model_ = nullptr;
};

} // namespace client
