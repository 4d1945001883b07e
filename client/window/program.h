// The program: wheatrudder-client [FOLDER] [--example FOLDER]
#pragma once

namespace client {

// Runs it until its window is closed. Threads that a share has blocked may still be there then: see main.cpp.
int run_program(int count, char **words);

} // namespace client
