// What is known of the folder that is open: its reading, or the sentence that there is none and why. When it is read,
// glanced at and given up on is decided here; the window only shows what the session says.
//
// Figures are there only as long as the folder answers. A reading or a glance that takes too long leaves none, and a
// glance that did is followed by a reading before any comes back.
#pragma once

#include "exporting.h"
#include "reader.h"

#include <QTimer>

namespace client {

// How changes are seen. Tests take one away to try the other.
struct Seeing {
    bool by_events = true;
    int glance_ms = 800; // the shortest pause between glances; 0: no glances
};

class Session : public QObject {
    Q_OBJECT

  public:
    explicit Session(Seeing seeing, QObject *parent = nullptr);
    ~Session() override;

    // What was open before is left at once, whatever it is doing.
    void open(const std::filesystem::path &folder);
    void read_again();
    // Reads the folder again and writes what was shown, if nothing has changed since.
    void write(const Order &order);
    // What is under way comes to nothing, and nothing begins by itself until somebody asks for it.
    void stop();
    // The day whose files are looked at most closely.
    void look_at(std::optional<Day> day);
    // A sentence that stands above this reading, and goes with it.
    void notify(const Said &said);
    void forget_notices();
    // The reading could not be shown: no part of it stays.
    void give_up();

    const std::optional<std::filesystem::path> &folder() const { return folder_; }
    const std::shared_ptr<const Reading> &reading() const { return reading_; }
    // What stands in the place of figures where there is no reading.
    const Said &instead() const { return instead_; }
    std::vector<Said> notices() const;
    // Somebody waits for the folder.
    bool is_reading() const;

  signals:
    // There is another reading, or none any more.
    void changed();
    // The folder has answered, or somebody has stopped waiting for it; after changed.
    void answered();
    void noticed();
    void progressed(int read, int of);

  private:
    void make_reader();
    void leave_reader();
    void begin_reading(Also also = {});
    void glance();
    void pause();
    void wait_for_answer();
    void grow_impatient();
    void take(const Answer &answer);
    void take_reading(const Answer &answer);
    void take_glance(bool changed, int took_ms);
    void say_instead(const Said &said);
    void tell(std::vector<Said> notices);
    std::vector<Said> orders_left();
    bool is_said_to_read() const;
    int pause_ms() const;

    Seeing seeing_;
    std::optional<std::filesystem::path> folder_;
    std::shared_ptr<const Reading> reading_;
    Said instead_ = Word::welcome;
    std::optional<Day> day_;
    std::vector<Said> notices_;
    std::shared_ptr<const Reading> told_of_; // the reading that the notices belong to; none where there was none
    std::vector<Said> ahead_;                // what is to stand above the next reading
    std::vector<QString> orders_;            // exports that nobody has told the end of yet
    bool is_stopped_ = false;
    int took_ms_ = 0; // the last answer

    Reader *reader_ = nullptr;
    QTimer slow_;     // an answer that takes longer than this leaves no figure
    QTimer glance_;   // the next glance at the folder
    QTimer arriving_; // the next look at files that were arriving
};

} // namespace client
