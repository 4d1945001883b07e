// The line at the top: folder, day, plant, export, tongue, help.
#pragma once

#include "screen.h"

class QComboBox;
class QLabel;
class QPushButton;

namespace client {

class TopBar : public QWidget, public Screen {
    Q_OBJECT

  public:
    explicit TopBar(QWidget *parent = nullptr);

    QWidget &as_widget() override { return *this; }
    QKeySequence keys() const override { return Qt::CTRL | Qt::Key_F; }
    // The keys go to the plant.
    void take_keys() override;

  signals:
    void open_asked();
    void day_chosen(client::Day day);
    void plant_chosen(client::RowId plant);
    // What was typed is no id and no name of the day.
    void plant_unknown(QString typed);
    void export_asked();
    void tongue_asked();
    void help_asked();

  private:
    // No day and no plant to choose from.
    void forget(Tongue tongue) override;
    // The days of the reading and the plants of the day, with what is chosen of them.
    void show_reading(const Shown &shown) override;

    void name_all(Tongue tongue);
    void offer_days(const Shown &shown);
    void offer_plants(const Shown &shown);
    void find_plant();

    QPushButton *open_ = nullptr;
    QLabel *day_label_ = nullptr;
    QComboBox *day_ = nullptr;
    QLabel *plant_label_ = nullptr;
    QComboBox *plant_ = nullptr;
    QPushButton *export_ = nullptr;
    QPushButton *tongue_ = nullptr;
    QPushButton *help_ = nullptr;
    QString typed_; // a plant that somebody has begun to type
};

} // namespace client
