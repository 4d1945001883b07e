// Pictures of every screen for people to look at, and whether those in docs/pictures still are what the client shows.
//
//   pictures_test EXAMPLE LATE COMMITTED OUT      compares with COMMITTED, and leaves what was taken in OUT
//   pictures_test --take EXAMPLE LATE OUT         writes them to OUT (tools/take-pictures)
//
// EXAMPLE is the example day and LATE the folder of its late correction. Beside each picture stands a text: every line
// of letters that is painted in it, the chart's too. The texts have to be the same on every machine: no figure can be
// another one unnoticed. Letters are smoothed by each kind of processor in its own way, so a file says on which kind
// the pictures were taken: there they have to agree closely, on another kind only by and large, and lines may end
// elsewhere. The clock of the window tells the same time in all pictures.
#include "desk.h"
#include "painted_text.h"
#include "typeface.h"

#include <QDir>
#include <QFile>
#include <QHash>
#include <QImage>
#include <QLabel>
#include <QPainter>
#include <QRegularExpression>
#include <QSignalSpy>
#include <QSysInfo>
#include <QTest>

#include <cstdio>
#include <filesystem>

using namespace client;

namespace {

// So many points may differ clearly on the kind of processor on which the pictures were taken, and so many of a
// thousand on another. Two digits of the usual size differ by 2 points at least (6 and 8 in bold).
constexpr qint64 most_points = 1;
constexpr double most_elsewhere = 5.0;
// How far the red, green or blue of two points that look alike may be apart, of 255.
constexpr int clearly = 48;
// The limit is there so that nothing waits for ever.
constexpr int limit_ms = 60'000;
const QString fixed_time = "2026-11-01 09:00:00";

struct Picture {
    QString name;
    Tongue tongue = Tongue::english;
    QSize size{1'440, 900};
    int percent = 100;
    Qt::Key screen = Qt::Key_1;
    bool is_dark = false;
    bool is_corrected = false;
    // Whose quarter; without it that which the window chooses by itself.
    std::optional<std::pair<RowId, Quarter>> of = {};
};

const Picture pictures[] = {
    {.name = "day"},
    {.name = "day-zh", .tongue = Tongue::chinese},
    {.name = "corrected", .is_corrected = true},
    {.name = "corrected-zh", .tongue = Tongue::chinese, .is_corrected = true},
    // The quarter that states its terms, and the unit between their baseline and half load.
    {.name = "terms", .of = std::pair{RowId{311}, Quarter{16}}},
    {.name = "terms-zh", .tongue = Tongue::chinese, .of = std::pair{RowId{311}, Quarter{16}}},
    // The quarter that the thermal average rules: a unit that is paid.
    {.name = "averaged", .of = std::pair{RowId{205}, Quarter{22}}},
    {.name = "averaged-zh", .tongue = Tongue::chinese, .of = std::pair{RowId{205}, Quarter{22}}},
    {.name = "rows", .screen = Qt::Key_3},
    {.name = "files", .screen = Qt::Key_4},
    {.name = "files-zh", .tongue = Tongue::chinese, .screen = Qt::Key_4},
    {.name = "small", .size = {1'000, 660}},
    {.name = "large-letters", .percent = 200},
    {.name = "dark", .is_dark = true},
};

QPalette dark() {
    QPalette palette(QColor(0x2b, 0x2b, 0x2b));
    palette.setColor(QPalette::Base, QColor(0x1e, 0x1e, 0x1e));
    palette.setColor(QPalette::AlternateBase, QColor(0x26, 0x26, 0x26));
    palette.setColor(QPalette::ToolTipBase, QColor(0x1e, 0x1e, 0x1e));
    for (auto role : {QPalette::Text, QPalette::WindowText, QPalette::ButtonText, QPalette::ToolTipText}) {
        palette.setColor(role, QColor(0xe6, 0xe6, 0xe6));
    }
    return palette;
}

// As files that have been there for a while: what is refused would else be still arriving.
void copy_folder(const std::filesystem::path &from, const std::filesystem::path &to) {
    const auto an_hour_ago = std::filesystem::file_time_type::clock::now() - std::chrono::hours(1);
    for (const auto &entry : std::filesystem::directory_iterator(from)) {
        const auto copy = to / entry.path().filename();
        std::filesystem::copy_file(entry.path(), copy);
        std::filesystem::last_write_time(copy, an_hour_ago);
    }
}

[[noreturn]] void fail(const QString &why) {
    std::fprintf(stderr, "pictures_test: %s\n", qPrintable(why));
    std::exit(2);
}

void wait_for(MainWindow &window, const std::function<void()> &begin) {
    QSignalSpy taken(&window, &MainWindow::taken);
    begin();
    const auto is_there = [&] { return !taken.isEmpty() && window.shown().reading && !window.is_reading(); };
    if (!QTest::qWaitFor(is_there, limit_ms)) {
        fail("the window has taken no reading");
    }
}

// The clock tells another time in each picture and has nothing to say in it.
void set_clock(const MainWindow &window) {
    static const QRegularExpression time("\\d{4}-\\d{2}-\\d{2} \\d{2}:\\d{2}:\\d{2}");
    for (auto *label : window.findChildren<QLabel *>()) {
        label->setText(label->text().replace(time, fixed_time));
    }
}

QImage image_of(MainWindow &window) {
    return window.grab().toImage().convertToFormat(QImage::Format_RGB32);
}

// The picture once it stays the same: tables fit themselves and scroll a turn or two after they are filled.
QImage resting_image(MainWindow &window) {
    QImage image, before;
    for (int same = 0, tries = 0; same < 3; ++tries) {
        if (tries > limit_ms / 20) {
            fail("the window never looks the same twice");
        }
        QTest::qWait(20);
        before = std::exchange(image, image_of(window));
        same = image == before ? same + 1 : 0;
    }
    return image;
}

// The same with 16 steps of red, green and blue, a list of colours and their places in it: a third of the bytes, and
// nobody sees it.
QImage with_few_colours(const QImage &image) {
    constexpr int step = 17;
    const auto rounded = [](int part) { return (part + step / 2) / step * step; };
    QImage few(image.size(), QImage::Format_Indexed8);
    QHash<QRgb, int> places;
    QList<QRgb> colours;
    for (int y = 0; y < image.height(); ++y) {
        for (int x = 0; x < image.width(); ++x) {
            const QRgb point = image.pixel(x, y);
            const QRgb colour = qRgb(rounded(qRed(point)), rounded(qGreen(point)), rounded(qBlue(point)));
            if (!places.contains(colour)) {
                places.insert(colour, static_cast<int>(colours.size()));
                colours << colour;
            }
            few.scanLine(y)[x] = static_cast<uchar>(places[colour]);
        }
    }
    few.setColorTable(colours);
    return colours.size() <= 256 ? few : image;
}

struct Taken {
    QImage image;
    QStringList text;
};

Taken taken_of(const Picture &picture, const std::filesystem::path &example, const std::filesystem::path &late) {
    made::Folder folder;
    copy_folder(example, folder.path());
    QTemporaryDir kept;
    Settings settings(kept.filePath("settings.ini"));
    settings.keep_tongue(picture.tongue);
    settings.keep_percent(picture.percent);
    QApplication::setPalette(picture.is_dark ? dark() : QPalette());
    MainWindow window(settings, std::nullopt, {.by_events = false, .glance_ms = 0});
    window.resize(picture.size);
    window.show();
    wait_for(window, [&] { window.open_folder(folder.path()); });
    if (picture.is_corrected) {
        copy_folder(late, folder.path());
        wait_for(window, [&] { window.read_again(); });
    }
    if (picture.of) {
        window.choose_plant(picture.of->first);
        window.choose_quarter(picture.of->second);
    }
    QTest::keyClick(&window, picture.screen, Qt::ControlModifier);
    QApplication::processEvents();
    set_clock(window);
    return {with_few_colours(resting_image(window)), painted_text(window)};
}

// Files.

QString path_in(const QString &folder, const QString &name) {
    return folder + "/" + name;
}

// The kind of processor on which the pictures of a folder were taken.
constexpr auto processor_file = "processor.txt";

QString this_processor() {
    return QSysInfo::currentCpuArchitecture();
}

void write_lines(const QString &path, const QStringList &lines) {
    QFile file(path);
    const QByteArray bytes = (lines.join('\n') + "\n").toUtf8();
    if (!file.open(QFile::WriteOnly) || file.write(bytes) != bytes.size()) {
        fail("cannot write " + path);
    }
}

QStringList lines_of(const QString &path) {
    QFile file(path);
    if (!file.open(QFile::ReadOnly)) {
        return {};
    }
    return QString::fromUtf8(file.readAll()).chopped(1).split('\n');
}

void keep(const Taken &taken, const QString &name, const QString &folder) {
    constexpr int smallest = 0;
    if (!taken.image.save(path_in(folder, name + ".png"), "PNG", smallest)) {
        fail("cannot write into " + folder);
    }
    write_lines(path_in(folder, name + ".txt"), taken.text);
}

// Comparing.

bool is_close(QRgb one, QRgb other) {
    return std::abs(qRed(one) - qRed(other)) <= clearly && std::abs(qGreen(one) - qGreen(other)) <= clearly &&
           std::abs(qBlue(one) - qBlue(other)) <= clearly;
}

// Whether a point has its like in the other picture, there or right beside it.
bool has_like(const QImage &other, int x, int y, QRgb point) {
    if (is_close(other.pixel(x, y), point)) {
        return true;
    }
    for (int down = std::max(0, y - 1); down <= std::min(other.height() - 1, y + 1); ++down) {
        for (int across = std::max(0, x - 1); across <= std::min(other.width() - 1, x + 1); ++across) {
            if (is_close(other.pixel(across, down), point)) {
                return true;
            }
        }
    }
    return false;
}

// The points of two pictures of the same size that have no like in the other.
qint64 points_apart(const QImage &one, const QImage &other) {
    qint64 apart = 0;
    for (int y = 0; y < one.height(); ++y) {
        for (int x = 0; x < one.width(); ++x) {
            const bool is_there = has_like(other, x, y, one.pixel(x, y)) && has_like(one, x, y, other.pixel(x, y));
            apart += is_there ? 0 : 1;
        }
    }
    return apart;
}

// What is wrong with a picture, in words; nothing where it is right.
QString fault_of_image(const QImage &taken, const QImage &committed, bool is_same_processor) {
    if (taken.size() != committed.size()) {
        return "another size, or no picture";
    }
    const qint64 apart = points_apart(taken, committed);
    const double of_thousand = 1'000.0 * static_cast<double>(apart) / (taken.width() * taken.height());
    const bool is_right = is_same_processor ? apart <= most_points : of_thousand <= most_elsewhere;
    return is_right ? QString() : QString("another picture, %1 points differ").arg(apart);
}

// Without what says where lines end: letters that are a hair wider may end them elsewhere.
QString letters_of(const QStringList &lines) {
    static const QRegularExpression between("[\\s|]+");
    return lines.join(' ').remove(between);
}

QString fault_of_text(const QStringList &taken, const QStringList &committed, bool is_same_processor) {
    if (!is_same_processor && letters_of(taken) == letters_of(committed)) {
        return {};
    }
    const QString apart = difference(taken.join('\n'), committed.join('\n'));
    return apart.isEmpty() ? QString() : "another text, " + apart;
}

int compare(const Taken &taken, const QString &name, const QString &committed) {
    const bool is_same_processor = lines_of(path_in(committed, processor_file)).value(0) == this_processor();
    const QImage image(path_in(committed, name + ".png"));
    QStringList faults{fault_of_text(taken.text, lines_of(path_in(committed, name + ".txt")), is_same_processor),
                       fault_of_image(taken.image, image, is_same_processor)};
    faults.removeAll(QString());
    const auto as_before = QString("as before%1").arg(is_same_processor ? "" : " (taken on another kind of processor)");
    std::printf("%s: %s\n", qPrintable(name), qPrintable(faults.isEmpty() ? as_before : faults.join("; ")));
    return faults.isEmpty() ? 0 : 1;
}

} // namespace

int main(int count, char **words) {
    QApplication application(count, words);
    QApplication::setCursorFlashTime(0);
    set_typeface();
    if (count != 5) {
        std::fprintf(stderr, "pictures_test EXAMPLE LATE COMMITTED OUT | --take EXAMPLE LATE OUT\n");
        return 2;
    }
    const bool takes = std::string_view(words[1]) == "--take";
    const char *const *folders = takes ? words + 2 : words + 1;
    const QString out = words[4];
    if (!QDir().mkpath(out)) {
        fail("cannot make " + out);
    }
    int wrong = 0;
    for (const Picture &picture : pictures) {
        const Taken taken = taken_of(picture, folders[0], folders[1]);
        keep(taken, picture.name, out);
        wrong += takes ? 0 : compare(taken, picture.name, folders[2]);
    }
    write_lines(path_in(out, processor_file), {this_processor()});
    return wrong == 0 ? 0 : 1;
}
