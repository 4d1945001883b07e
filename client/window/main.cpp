// The desktop client: wheatrudder-client [FOLDER] [--example FOLDER]
#include "program.h"

#include <cstdlib>

// The window is gone and the settings are kept. A thread that a stalled share has blocked is not waited for: it ends
// with the process, and nothing that it might still touch is taken down before.
int main(int count, char **words) {
    std::quick_exit(client::run_program(count, words));
}
