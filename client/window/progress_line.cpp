#include "progress_line.h"

#include "figures.h"
#include "shown.h"

#include <QHBoxLayout>
#include <QProgressBar>
#include <QPushButton>

namespace client {

ProgressLine::ProgressLine(QWidget *parent) : QWidget(parent) {
    bar_ = new QProgressBar(this);
    stop_ = new QPushButton(this);
    auto *line = new QHBoxLayout(this);
    line->setContentsMargins(0, 0, 0, 0);
    line->addWidget(bar_, 1);
    line->addWidget(stop_);
    connect(stop_, &QPushButton::clicked, this, &ProgressLine::stop_asked);
}

void ProgressLine::clear(Tongue tongue) {
    hide();
    bar_->reset();
    bar_->setFormat({});
    bar_->setAccessibleName({});
    stop_->setText(words(Word::stop, tongue));
    stop_->setToolTip(words(Word::stop_what, tongue));
}

void ProgressLine::tell(int read, int of, Tongue tongue) {
    bar_->setRange(0, of);
    bar_->setValue(read);
    bar_->setFormat(
        words({Word::reading_progress, {client::text(std::int64_t{read}), client::text(std::int64_t{of})}}, tongue));
    bar_->setAccessibleName(bar_->format());
    show();
}

} // namespace client
