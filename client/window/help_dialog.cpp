#include "help_dialog.h"

#include "shown.h"

#include <QDialogButtonBox>
#include <QHeaderView>
#include <QPushButton>
#include <QTableWidget>
#include <QVBoxLayout>

#include <span>
#include <utility>

namespace client {

namespace {

using Pair = std::pair<Word, Word>;

constexpr Pair keys[] = {
    {Word::key_keys, Word::key_keys_does},         {Word::key_page, Word::key_page_does},
    {Word::key_home, Word::key_home_does},         {Word::key_enter, Word::key_enter_does},
    {Word::key_dearest, Word::key_dearest_does},   {Word::key_tabs, Word::key_tabs_does},
    {Word::key_plant, Word::key_plant_does},       {Word::key_day, Word::key_day_does},
    {Word::key_open, Word::key_open_does},         {Word::key_again, Word::key_again_does},
    {Word::key_export, Word::key_export_does},     {Word::key_copy, Word::key_copy_does},
    {Word::key_language, Word::key_language_does}, {Word::key_size, Word::key_size_does},
    {Word::key_escape, Word::key_escape_does},
};

constexpr Pair terms[] = {
    {Word::term_earned, Word::term_earned_means},   {Word::term_terms, Word::term_terms_means},
    {Word::term_average, Word::term_average_means}, {Word::term_paid, Word::term_paid_means},
    {Word::term_weight, Word::term_weight_means},   {Word::term_cap, Word::term_cap_means},
    {Word::term_round, Word::term_round_means},     {Word::term_cut, Word::term_cut_means},
    {Word::term_penalty, Word::term_penalty_means}, {Word::term_row, Word::term_row_means},
};

QTableWidget *table_of(std::span<const Pair> pairs, Pair heads, Tongue tongue) {
    auto *table = new QTableWidget(static_cast<int>(pairs.size()), 2);
    table->setHorizontalHeaderLabels({words(heads.first, tongue), words(heads.second, tongue)});
    for (int at = 0; at < table->rowCount(); ++at) {
        const Pair &pair = pairs[static_cast<std::size_t>(at)];
        table->setItem(at, 0, new QTableWidgetItem(words(pair.first, tongue)));
        table->setItem(at, 1, new QTableWidgetItem(words(pair.second, tongue)));
    }
    table->setAccessibleName(words(heads.first, tongue));
    table->setEditTriggers(QAbstractItemView::NoEditTriggers);
    table->setTabKeyNavigation(false);
    table->setWordWrap(true);
    table->verticalHeader()->hide();
    table->verticalHeader()->setSectionResizeMode(QHeaderView::ResizeToContents);
    table->horizontalHeader()->setSectionResizeMode(0, QHeaderView::ResizeToContents);
    table->horizontalHeader()->setSectionResizeMode(1, QHeaderView::Stretch);
    return table;
}

} // namespace

HelpDialog::HelpDialog(Tongue tongue, QWidget *parent) : QDialog(parent) {
    setWindowTitle(words(Word::help, tongue));
    auto *buttons = new QDialogButtonBox(this);
    QPushButton *close = buttons->addButton(words(Word::close, tongue), QDialogButtonBox::RejectRole);
    close->setDefault(true);
    auto *page = new QVBoxLayout(this);
    page->addWidget(table_of(keys, {Word::key, Word::does}, tongue), 3);
    page->addWidget(table_of(terms, {Word::term, Word::means}, tongue), 2);
    page->addWidget(buttons);
    connect(buttons, &QDialogButtonBox::rejected, this, &QDialog::reject);
    resize(fontMetrics().averageCharWidth() * 90, fontMetrics().height() * 36);
}

} // namespace client
