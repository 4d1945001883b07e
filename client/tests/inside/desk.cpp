#include "desk.h"

#include "screen_text.h"

#include <QRegularExpression>
#include <QSignalSpy>
#include <QTest>

using namespace client;

Desk::Desk(Seeing seeing) {
    for (unsigned quarter = 0; quarter < 4; ++quarter) {
        made::write(folder / name(quarter), made::interval(slot(quarter)));
    }
    settings_ = std::make_unique<Settings>(settings_file());
    settings_->keep_tongue(Tongue::english);
    settings_->keep_plant(wind);
    window_ = std::make_unique<MainWindow>(*settings_, std::nullopt, seeing);
}

void Desk::open() {
    window_->show();
    QSignalSpy taken(window_.get(), &MainWindow::taken);
    window_->open_folder(folder.path());
    QVERIFY(taken.wait(long_ms));
    QVERIFY(window_->shown().reading);
}

bool Desk::waits_for_reading() {
    return QSignalSpy(window_.get(), &MainWindow::taken).wait(long_ms);
}

QString Desk::text() const {
    return without_times(all_text(*window_));
}

QString Desk::text_of_fresh_start() const {
    QTemporaryDir elsewhere;
    Settings settings(elsewhere.filePath("settings.ini"));
    settings.keep_tongue(window_->shown().tongue);
    settings.keep_plant(window_->shown().plant.value_or(wind));
    MainWindow fresh(settings, std::nullopt, {.by_events = false, .glance_ms = 0});
    fresh.resize(window_->size());
    fresh.show();
    QSignalSpy taken(&fresh, &MainWindow::taken);
    fresh.open_folder(folder.path());
    taken.wait(long_ms);
    if (window_->shown().quarter) {
        fresh.choose_quarter(*window_->shown().quarter);
    }
    return without_times(all_text(fresh));
}

std::string Desk::name(unsigned quarter, const std::string &kind) {
    return "2026-10-31-q0" + std::to_string(quarter) + "." + kind;
}

QString without_times(const QString &text) {
    static const QRegularExpression time("\\d{4}-\\d{2}-\\d{2} \\d{2}:\\d{2}:\\d{2}");
    return QString(text).replace(time, "TIME");
}

QString difference(const QString &is, const QString &due) {
    const QStringList lines = is.split('\n'), due_lines = due.split('\n');
    for (qsizetype at = 0; at < std::max(lines.size(), due_lines.size()); ++at) {
        if (lines.value(at) != due_lines.value(at)) {
            return QString("line %1 is “%2”, and not “%3”").arg(at).arg(lines.value(at), due_lines.value(at));
        }
    }
    return {};
}

bool has_money(const QString &text) {
    static const QRegularExpression money("\\d\\.\\d{2}(?!\\d)");
    return money.match(text).hasMatch();
}
