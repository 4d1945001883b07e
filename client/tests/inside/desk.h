// A window over a folder that a test has made, with settings of its own.
#pragma once

#include "made.h"
#include "main_window.h"

#include <QTemporaryDir>

#include <memory>

// No test asks how long something takes: whatever comes, comes before this, on a machine that has much else to do.
inline constexpr int long_ms = 30'000;

class Desk {
  public:
    // The quarters 0 to 3 of 2026-10-31, each interval X at tariff 1300: row 3, the wind farm, pays 250.00 yuan in
    // each.
    explicit Desk(client::Seeing seeing = {});

    made::Folder folder;
    // Opens the folder and waits until it is shown.
    void open();
    // Waits until the window has taken another reading; false if none came.
    bool waits_for_reading();
    client::MainWindow &window() { return *window_; }
    // What a window says that is opened on the folder now, for the first time, at the same plant and quarter.
    QString text_of_fresh_start() const;
    // What this window says, but for the time of the reading.
    QString text() const;
    QString settings_file() const { return settings_folder_.filePath("settings.ini"); }

    static client::Slot slot(unsigned quarter) { return {{9'800}, {static_cast<std::uint8_t>(quarter)}}; }
    static std::string name(unsigned quarter, const std::string &kind = "interval");
    static constexpr client::RowId wind{3};

  private:
    QTemporaryDir settings_folder_;
    std::unique_ptr<client::Settings> settings_;
    std::unique_ptr<client::MainWindow> window_;
};

// The text without times, which differ from one reading to the next.
QString without_times(const QString &text);
// The first lines in which two texts differ; empty where they do not.
QString difference(const QString &is, const QString &due);
// Whether there is money in it: digits with a point and two places.
bool has_money(const QString &text);
