#include "program.h"

#include "main_window.h"
#include "typeface.h"

#include <QApplication>
#include <QCommandLineParser>

namespace client {

int run_program(int count, char **words) {
    QApplication application(count, words);
    QApplication::setApplicationName("wheatrudder-client");
    QApplication::setApplicationVersion("1");
    set_typeface();

    QCommandLineParser parser;
    parser.addPositionalArgument("FOLDER", "the folder to open");
    const QCommandLineOption example("example", "the folder that the first start offers", "FOLDER");
    parser.addOption(example);
    parser.addHelpOption();
    parser.process(application);

    Settings settings;
    std::optional<std::filesystem::path> example_folder;
    if (parser.isSet(example)) {
        example_folder = path_of(parser.value(example));
    }
    MainWindow window(settings, example_folder);
    const QStringList folders = parser.positionalArguments();
    if (!folders.isEmpty() && !folders.first().isEmpty()) {
        window.open_folder(path_of(folders.first()));
    } else if (const auto kept = settings.folder()) {
        window.open_folder(*kept);
    }
    window.show();
    return QApplication::exec();
}

} // namespace client
