#include "status_line.h"

#include "look.h"

#include <QDateTime>
#include <QHBoxLayout>
#include <QLabel>
#include <QPushButton>

#include <algorithm>

namespace client {

namespace {

std::string clock_text(std::chrono::system_clock::time_point taken) {
    const auto since = std::chrono::duration_cast<std::chrono::milliseconds>(taken.time_since_epoch());
    return QDateTime::fromMSecsSinceEpoch(since.count()).toString("yyyy-MM-dd HH:mm:ss").toStdString();
}

} // namespace

StatusLine::StatusLine(QWidget *parent) : QWidget(parent) {
    faults_ = new QPushButton(this);
    faults_->setAutoDefault(false);
    as_of_ = plain_label(this);
    as_of_->setAlignment(Qt::AlignRight | Qt::AlignVCenter);
    auto *line = new QHBoxLayout(this);
    line->setContentsMargins(0, 0, 0, 0);
    line->addWidget(faults_);
    line->addWidget(as_of_, 1);
    connect(faults_, &QPushButton::clicked, this, &StatusLine::files_asked);
}

void StatusLine::forget(Tongue tongue) {
    as_of_->clear();
    faults_->hide();
    faults_->setText({});
    faults_->setToolTip(words(Word::faults_what, tongue));
}

void StatusLine::show_reading(const Shown &shown) {
    const auto &files = shown.reading->files;
    const std::string at = clock_text(shown.reading->taken);
    const Said from = files.size() == 1
                          ? Said(Word::as_of_one, {at})
                          : Said(Word::as_of, {at, client::text(static_cast<std::int64_t>(files.size()))});
    as_of_->setText(words(from, shown.tongue));
    const auto faulty = std::count_if(files.begin(), files.end(), [](const File &file) { return file.is_faulty(); });
    const Said faults =
        faulty == 1 ? Said(Word::faults_one) : Said(Word::faults, {client::text(static_cast<std::int64_t>(faulty))});
    faults_->setText(words(faults, shown.tongue));
    faults_->setVisible(faulty > 0);
}

} // namespace client
