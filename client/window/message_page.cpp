#include "message_page.h"

#include <QHBoxLayout>
#include <QLabel>
#include <QPushButton>
#include <QVBoxLayout>

namespace client {

MessagePage::MessagePage(QWidget *parent) : QWidget(parent) {
    sentence_ = new QLabel(this);
    sentence_->setTextFormat(Qt::PlainText);
    sentence_->setTextInteractionFlags(Qt::TextSelectableByMouse | Qt::TextSelectableByKeyboard);
    sentence_->setWordWrap(true);
    sentence_->setAlignment(Qt::AlignCenter);
    open_ = new QPushButton(this);
    example_ = new QPushButton(this);

    auto *buttons = new QHBoxLayout;
    buttons->addStretch(1);
    buttons->addWidget(open_);
    buttons->addWidget(example_);
    buttons->addStretch(1);
    auto *page = new QVBoxLayout(this);
    page->setContentsMargins(48, 48, 48, 48);
    page->addStretch(2);
    page->addWidget(sentence_);
    page->addSpacing(fontMetrics().height());
    page->addLayout(buttons);
    page->addStretch(3);

    connect(open_, &QPushButton::clicked, this, &MessagePage::open_asked);
    connect(example_, &QPushButton::clicked, this, &MessagePage::example_asked);
}

void MessagePage::say(const Said &said, bool offers_example, Tongue tongue) {
    sentence_->setText(words(said, tongue));
    sentence_->setAccessibleName(words(said, tongue));
    open_->setText(words(Word::open, tongue));
    example_->setText(words(Word::example, tongue));
    example_->setVisible(offers_example);
}

} // namespace client
