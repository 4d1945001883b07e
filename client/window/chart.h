// The chart of a day: 96 bars, earned upwards and paid downwards, painted here. A screen reader finds a chart with a
// name, and the chosen quarter with its amount as its value.
#pragma once

#include "view.h"

#include <QString>
#include <QWidget>

#include <optional>

namespace client {

struct ChartPlan;

class Chart : public QWidget {
    Q_OBJECT

  public:
    explicit Chart(QWidget *parent = nullptr);

    void clear(Tongue tongue);
    void show_day(const PlantDay &day, Tongue tongue);
    void choose(std::optional<Quarter> quarter);
    std::optional<Quarter> chosen() const { return chosen_; }
    // The chosen quarter and its amount in one sentence, for the tool tip and for screen readers.
    QString told() const;

    QSize sizeHint() const override;
    QSize minimumSizeHint() const override;

  signals:
    void quarter_chosen(client::Quarter quarter);
    void quarter_opened();

  protected:
    bool event(QEvent *event) override;
    void paintEvent(QPaintEvent *event) override;
    void mousePressEvent(QMouseEvent *event) override;
    void mouseDoubleClickEvent(QMouseEvent *event) override;
    void keyPressEvent(QKeyEvent *event) override;
    void resizeEvent(QResizeEvent *event) override;
    void changeEvent(QEvent *event) override;

  private:
    QString told_of(Quarter quarter) const;
    Said said_of(Quarter quarter) const;
    std::optional<Quarter> quarter_at(QPoint place) const;
    ChartPlan plan() const;
    void pick(int number);
    void make_room();
    void show_tip(QPoint place, QPoint on_screen);
    void tell_readers();

    std::optional<PlantDay> day_;
    std::optional<Quarter> chosen_;
    Tongue tongue_ = Tongue::english;
};

} // namespace client
