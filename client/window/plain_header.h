// The heads of a table: text on the table's own ground with a line beside it, wrapped where the column is narrow.
#pragma once

#include <QHeaderView>

#include <functional>

namespace client {

class PlainHeader : public QHeaderView {
    Q_OBJECT

  public:
    explicit PlainHeader(Qt::Orientation orientation, QWidget *parent = nullptr);

    // The width that a head asks for at least: that of its longest word.
    int least_width(int section) const;
    // The height that all heads need in columns as wide as they are now.
    int needed_height() const;
    // So much room, beside the cells, is not the heads': who has it paints it.
    void lend(int room, std::function<void(QPainter &)> paint);
    // A head at a place of its own.
    void paint_head(QPainter &painter, const QRect &place, int section) const;

  protected:
    void paintEvent(QPaintEvent *event) override;
    void paintSection(QPainter *painter, const QRect &place, int section) const override;

  private:
    QString head(int section) const;
    QRect place_of(int section) const;
    void paint_top(QPainter &painter, const QRect &place, int section) const;
    void paint_side(QPainter &painter, const QRect &place, int section) const;
    int alignment(int section) const;

    int lent_ = 0;
    std::function<void(QPainter &)> paint_lent_;
};

} // namespace client
