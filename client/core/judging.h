// What is made of the files that were read: the form of each, the state of every quarter, what is to be said of each
// file.
#pragma once

#include "reading.h"

namespace client {

// A file of which only the path is known; then what came of reading it.
File file_at(const std::string &path);
File unread(File file, const Obstacle &obstacle);
File read(File file, Content content);

// Settles the quarters of a reading that has its files, and puts these in order. False where somebody asked to stop.
bool judge(Reading &reading, const std::stop_token &stop);

} // namespace client
