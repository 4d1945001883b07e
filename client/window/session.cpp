#include "session.h"

#include "names.h"

#include <algorithm>

namespace client {

namespace {

// Longer than this no figure stands that nobody can vouch for.
constexpr int slow_after_ms = 150;
// When the folder is looked at once more because a path was not watched before.
constexpr int soon_ms = 50;
// A share that takes long to answer is asked less often, so that its figures stay for four times as long as they are
// away; but a change nobody hears of is seen after ten seconds all the same.
constexpr int times_as_long = 4;
constexpr int longest_pause_ms = 10'000;

bool is_same(const Said &one, const Said &other) {
    return one.word == other.word && one.in(Tongue::english) == other.in(Tongue::english);
}

void set_once(QTimer &timer) {
    timer.setSingleShot(true);
}

} // namespace

Session::Session(Seeing seeing, QObject *parent) : QObject(parent), seeing_(seeing) {
    set_once(slow_);
    set_once(glance_);
    set_once(arriving_);
    connect(&slow_, &QTimer::timeout, this, &Session::grow_impatient);
    connect(&glance_, &QTimer::timeout, this, &Session::glance);
    connect(&arriving_, &QTimer::timeout, this, [this] { begin_reading(); });
}

Session::~Session() {
    leave_reader();
}

// The worker of one folder.

void Session::make_reader() {
    reader_ = new Reader(*folder_, seeing_.by_events, this);
    connect(reader_, &Reader::read_out, this, &Session::take);
    connect(reader_, &Reader::glanced, this, &Session::take_glance);
    connect(reader_, &Reader::progressed, this, [this](int read, int of) {
        if (is_said_to_read()) {
            emit progressed(read, of);
        }
    });
    connect(reader_, &Reader::stirred, this, [this] { begin_reading(); });
    connect(reader_, &Reader::stirred_around, this, &Session::glance);
}

// Its answer is dropped from now on. It may be the one who calls, so it goes a little later.
void Session::leave_reader() {
    slow_.stop();
    glance_.stop();
    arriving_.stop();
    if (Reader *left = std::exchange(reader_, nullptr)) {
        left->disconnect(this);
        left->leave();
        left->deleteLater();
    }
}

// What somebody asks for.

void Session::open(const std::filesystem::path &folder) {
    leave_reader();
    folder_ = folder;
    day_.reset();
    took_ms_ = 0;
    say_instead(Word::reading);
    ahead_ = orders_left();
    emit changed();
    read_again();
}

void Session::read_again() {
    is_stopped_ = false;
    begin_reading();
}

void Session::write(const Order &order) {
    is_stopped_ = false;
    orders_.push_back(order.path);
    begin_reading(
        [order](const Outcome &outcome, const std::stop_token &stop) { return write_if_same(order, outcome, stop); });
}

void Session::stop() {
    if (!is_reading()) {
        return;
    }
    is_stopped_ = true;
    leave_reader();
    say_instead(Word::stopped);
    tell(orders_left());
    emit changed();
    emit answered();
}

void Session::look_at(std::optional<Day> day) {
    if (std::exchange(day_, day) != day && reader_ && reading_) {
        reader_->watch(reading_, day);
    }
}

bool Session::is_reading() const {
    return reader_ && (reader_->is_reading() || (!reading_ && reader_->is_busy()));
}

// Asking the folder.

void Session::begin_reading(Also also) {
    if (!folder_ || is_stopped_) {
        return;
    }
    if (!reader_) {
        make_reader();
    }
    glance_.stop();
    arriving_.stop();
    reader_->read(day_, std::move(also));
    wait_for_answer();
}

// Without a reading there is nothing to compare with, so the folder is tried anew.
void Session::glance() {
    if (!reader_ || reader_->is_busy()) {
        return;
    }
    if (!reading_) {
        begin_reading();
        return;
    }
    reader_->glance(reading_, day_);
    wait_for_answer();
}

void Session::wait_for_answer() {
    if (!slow_.isActive()) {
        slow_.start(slow_after_ms);
    }
}

void Session::grow_impatient() {
    if (!reader_ || !reader_->is_busy()) {
        return;
    }
    if (!is_said_to_read()) {
        reading_.reset();
        instead_ = Word::reading;
        emit changed();
    }
    emit progressed(0, 0);
}

bool Session::is_said_to_read() const {
    return !reading_ && instead_.word == Word::reading;
}

int Session::pause_ms() const {
    return std::max(seeing_.glance_ms, std::min(times_as_long * took_ms_, longest_pause_ms));
}

void Session::pause() {
    if (seeing_.glance_ms > 0) {
        glance_.start(pause_ms());
    }
}

// What it answers.

void Session::take(const Answer &answer) {
    slow_.stop();
    took_ms_ = answer.took_ms;
    if (!answer.folder.empty()) {
        folder_ = answer.folder;
    }
    const auto done = std::min(answer.told.size(), orders_.size());
    orders_.erase(orders_.begin(), orders_.begin() + static_cast<std::ptrdiff_t>(done));
    const auto *gone = std::get_if<Gone>(&answer.outcome);
    if (std::holds_alternative<std::shared_ptr<const Reading>>(answer.outcome)) {
        take_reading(answer);
        emit changed();
    } else if (const Said why = gone ? gone->why : Said(Word::stopped);
               reading_ || !is_same(instead_, why) || !answer.told.empty()) {
        // A folder that stays away is tried over and over: nobody has to hear of it each time.
        say_instead(why);
        tell(answer.told);
        emit changed();
    }
    if (reader_ && reader_->is_reading()) {
        wait_for_answer();
    } else if (reader_) {
        pause();
        if (answer.is_unheard && glance_.isActive()) {
            glance_.start(std::min(pause_ms(), std::max(soon_ms, times_as_long * took_ms_)));
        }
    }
    emit answered();
}

// A sentence stays where the files are the same, byte by byte.
void Session::take_reading(const Answer &answer) {
    reading_ = std::get<std::shared_ptr<const Reading>>(answer.outcome);
    const bool is_kept = answer.told.empty() && told_of_ && same_files(*told_of_, *reading_);
    std::vector<Said> notices = is_kept ? notices_ : std::exchange(ahead_, {});
    notices.insert(notices.end(), answer.told.begin(), answer.told.end());
    tell(std::move(notices));
    if (reading_->arriving) {
        arriving_.start(static_cast<int>(arriving_for.count()) + 100);
    }
}

// After a glance that took too long nothing stands any more, and everything is read afresh.
void Session::take_glance(bool changed, int took_ms) {
    slow_.stop();
    took_ms_ = took_ms;
    if (changed || !reading_) {
        begin_reading();
    } else {
        pause();
    }
}

// What is said.

void Session::say_instead(const Said &said) {
    reading_.reset();
    tell({});
    instead_ = said;
}

void Session::tell(std::vector<Said> notices) {
    notices_ = std::move(notices);
    told_of_ = notices_.empty() ? nullptr : reading_;
}

void Session::give_up() {
    say_instead(Word::screen_fault);
    emit changed();
}

void Session::notify(const Said &said) {
    tell({said});
    emit noticed();
}

void Session::forget_notices() {
    tell({});
    emit noticed();
}

std::vector<Said> Session::notices() const {
    std::vector<Said> all = told_of_ && !reading_ ? std::vector<Said>() : notices_;
    if (reading_ && !reading_->first_day()) {
        all.emplace_back(Word::no_files);
    }
    return all;
}

// An export may have been written or not when nobody waits for its end any more.
std::vector<Said> Session::orders_left() {
    std::vector<Said> all;
    for (const QString &path : std::exchange(orders_, {})) {
        all.push_back({Word::export_left, {client::shown(path_of(path).native())}});
    }
    return all;
}

} // namespace client
