#include "painted_text.h"

#include <QPaintDevice>
#include <QPaintEngine>
#include <QRegion>

#include <algorithm>
#include <cmath>

namespace {

// A piece of text as it comes: letters of one font.
struct Piece {
    QString text;
    QPointF from; // the left end of its base line
    QRectF box;
    QRegion seen; // what is painted on; empty where that is everything
};

// Paints nothing and takes down every piece of text.
class Listener : public QPaintEngine {
  public:
    Listener() : QPaintEngine(AllFeatures) {}

    bool begin(QPaintDevice *) override { return true; }
    bool end() override { return true; }
    Type type() const override { return User; }
    void drawPixmap(const QRectF &, const QPixmap &, const QRectF &) override {}
    void drawImage(const QRectF &, const QImage &, const QRectF &, Qt::ImageConversionFlags) override {}
    void drawPath(const QPainterPath &) override {}
    void drawPolygon(const QPointF *, int, PolygonDrawMode) override {}

    void updateState(const QPaintEngineState &changed) override {
        if (changed.state().testFlag(DirtyTransform)) {
            transform_ = changed.transform();
        }
    }

    void drawTextItem(const QPointF &place, const QTextItem &item) override {
        const QPointF from = transform_.map(place);
        const QRectF box(from.x(), from.y() - item.ascent(), item.width(), item.ascent() + item.descent());
        pieces.push_back({item.text(), from, box, systemClip()});
    }

    std::vector<Piece> pieces;

  private:
    QTransform transform_;
};

class Sheet : public QPaintDevice {
  public:
    explicit Sheet(QSize size) : size_(size) {}
    QPaintEngine *paintEngine() const override { return &engine; }

    mutable Listener engine;

  protected:
    int metric(PaintDeviceMetric which) const override {
        constexpr int dots_an_inch = 96;
        switch (which) {
        case PdmWidth:
            return size_.width();
        case PdmHeight:
            return size_.height();
        case PdmDpiX:
        case PdmDpiY:
        case PdmPhysicalDpiX:
        case PdmPhysicalDpiY:
            return dots_an_inch;
        case PdmDevicePixelRatio:
            return 1;
        case PdmDevicePixelRatioScaled:
            return static_cast<int>(devicePixelRatioFScale());
        case PdmDepth:
            return 32;
        default:
            return QPaintDevice::metric(which);
        }
    }

  private:
    QSize size_;
};

std::vector<Piece> pieces_of(QWidget &widget) {
    Sheet sheet(widget.size());
    widget.render(&sheet);
    return sheet.engine.pieces;
}

// Half of a line of letters can be read; its upper or lower edge alone cannot.
bool is_seen(const Piece &piece) {
    const QRectF middle = piece.box.adjusted(0, piece.box.height() / 4, 0, -piece.box.height() / 4);
    return piece.seen.isEmpty() || piece.seen.intersects(middle.toAlignedRect());
}

bool is_on_line(const Piece &piece, const Piece &before) {
    return std::abs(piece.from.y() - before.from.y()) < 1;
}

bool follows(const Piece &piece, const Piece &before) {
    return is_on_line(piece, before) && std::abs(piece.from.x() - before.box.right()) < 1;
}

// A text with letters of two fonts comes once for each of them, with all of its letters.
bool is_told_already(const Piece &piece, const Piece &before) {
    return piece.text == before.text && follows(piece, before);
}

bool is_whole(const Piece &piece) {
    const QRect seen = piece.seen.boundingRect();
    return piece.seen.isEmpty() || (piece.box.left() >= seen.left() && piece.box.right() <= seen.right() + 1.5);
}

} // namespace

QStringList painted_text(QWidget &widget) {
    QStringList lines;
    const Piece nothing{};
    const Piece *before = &nothing;
    const std::vector<Piece> pieces = pieces_of(widget);
    for (const Piece &piece : pieces) {
        if (is_seen(piece) && !(is_told_already(piece, *before) && !lines.isEmpty())) {
            const bool is_same_line =
                !lines.isEmpty() && is_on_line(piece, *before) && piece.from.x() > before->box.right() - 1;
            if (!is_same_line) {
                lines << piece.text;
            } else {
                lines.last() += (follows(piece, *before) ? "" : " | ") + piece.text;
            }
        }
        before = &piece;
    }
    lines.removeAll(QString());
    return lines;
}

std::vector<Painted> painted_places(QWidget &widget) {
    std::vector<Painted> all;
    const Piece nothing{};
    const Piece *before = &nothing;
    const std::vector<Piece> pieces = pieces_of(widget);
    for (const Piece &piece : pieces) {
        if (is_seen(piece) && is_told_already(piece, *before) && !all.empty()) {
            all.back().place.setRight(piece.box.right());
            all.back().is_whole = all.back().is_whole && is_whole(piece);
        } else if (is_seen(piece)) {
            all.push_back({piece.text, piece.box, is_whole(piece)});
        }
        before = &piece;
    }
    return all;
}

QString painted_within(const std::vector<Painted> &all, const QRect &place) {
    std::vector<Painted> here;
    for (const Painted &one : all) {
        if (QRectF(place).contains(one.place.center())) {
            here.push_back(one);
        }
    }
    std::sort(here.begin(), here.end(),
              [](const Painted &one, const Painted &other) { return one.place.left() < other.place.left(); });
    QString text;
    for (const Painted &one : here) {
        const bool fits = one.place.left() >= place.left() && one.place.right() <= place.right() + 1.0;
        if (!fits || !one.is_whole) {
            return {};
        }
        text += one.text;
    }
    return text;
}
