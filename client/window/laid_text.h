// A text laid out as it is painted. What measures and what paints use the same, so that no text is given less room than
// it takes.
#pragma once

#include <QFont>
#include <QHash>
#include <QSize>
#include <QTextLayout>

#include <optional>

class QPainter;

namespace client {

class LaidText {
  public:
    // On one line; or, within a width, on as many as it asks for, broken anywhere if need be: a hash is one long word.
    LaidText(const QString &text, const QFont &font, std::optional<int> within = {});

    // What it takes, never rounded down.
    QSize size() const { return size_; }
    void paint(QPainter &painter, QPoint at) const;

  private:
    QTextLayout layout_;
    QSize size_;
};

// The widths of many texts. A digit counts as the widest of all digits: figures of one form are measured once, and a
// column is as wide as any figure of that form may be.
class TextWidths {
  public:
    explicit TextWidths(const QFont &font);

    int of(const QString &text, bool is_bold = false);

  private:
    struct Known {
        QFont font;
        QChar widest_digit;
        QHash<QString, int> widths;
    };

    static Known begin(const QFont &font);

    Known plain_, bold_;
};

} // namespace client
