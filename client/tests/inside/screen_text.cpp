#include "screen_text.h"

#include <QAbstractButton>
#include <QAbstractItemView>
#include <QAccessible>
#include <QComboBox>
#include <QHeaderView>
#include <QLabel>
#include <QLineEdit>
#include <QProgressBar>
#include <QScrollBar>
#include <QTabWidget>

namespace {

void add_model(const QAbstractItemModel &model, QStringList &texts) {
    for (int column = 0; column < model.columnCount(); ++column) {
        texts << model.headerData(column, Qt::Horizontal).toString();
    }
    for (int row = 0; row < model.rowCount(); ++row) {
        texts << model.headerData(row, Qt::Vertical).toString();
        for (int column = 0; column < model.columnCount(); ++column) {
            const QModelIndex cell = model.index(row, column);
            for (int role : {Qt::DisplayRole, Qt::ToolTipRole, Qt::AccessibleTextRole, Qt::AccessibleDescriptionRole}) {
                texts << cell.data(role).toString();
            }
        }
    }
}

void add_own(const QWidget &widget, QStringList &texts) {
    if (const auto *label = qobject_cast<const QLabel *>(&widget)) {
        texts << label->text();
    } else if (const auto *button = qobject_cast<const QAbstractButton *>(&widget)) {
        texts << button->text();
    } else if (const auto *line = qobject_cast<const QLineEdit *>(&widget)) {
        texts << line->text();
    } else if (const auto *bar = qobject_cast<const QProgressBar *>(&widget)) {
        texts << bar->text() << bar->format();
    } else if (const auto *combo = qobject_cast<const QComboBox *>(&widget)) {
        for (int at = 0; at < combo->count(); ++at) {
            texts << combo->itemText(at);
        }
    } else if (const auto *tabs = qobject_cast<const QTabWidget *>(&widget)) {
        for (int at = 0; at < tabs->count(); ++at) {
            texts << tabs->tabText(at);
        }
    } else if (const auto *view = qobject_cast<const QAbstractItemView *>(&widget)) {
        if (view->model() && !qobject_cast<const QHeaderView *>(view)) {
            add_model(*view->model(), texts);
        }
    }
}

void add_heard(const QWidget &widget, QStringList &texts) {
    if (qobject_cast<const QScrollBar *>(&widget)) {
        return; // where somebody has scrolled to
    }
    texts << widget.toolTip() << widget.statusTip() << widget.whatsThis() << widget.accessibleName()
          << widget.accessibleDescription() << widget.windowTitle();
    if (QAccessibleInterface *heard = QAccessible::queryAccessibleInterface(const_cast<QWidget *>(&widget))) {
        for (auto part : {QAccessible::Name, QAccessible::Value, QAccessible::Description}) {
            texts << heard->text(part);
        }
    }
}

} // namespace

QStringList texts_of(const QWidget &window, bool only_showing) {
    QStringList texts;
    QList<const QWidget *> widgets{&window};
    for (const QWidget *widget : window.findChildren<QWidget *>()) {
        widgets << widget;
    }
    for (const QWidget *widget : widgets) {
        if (only_showing && !widget->isVisible()) {
            continue;
        }
        add_own(*widget, texts);
        add_heard(*widget, texts);
    }
    texts.removeAll(QString());
    return texts;
}

QString all_text(const QWidget &window, bool only_showing) {
    return texts_of(window, only_showing).join('\n');
}
