// A disk that answers late: calls of the system on what lies in one folder wait before they are made, as on a share
// that is slow or stalls. What is here works by standing before the system's library: a test is linked with it.
//
// Its state lies in a file that a program started by the test shares (SLOW_DISK names it), or in the program alone.
#pragma once

#include <string>

namespace slow_disk {

// Calls on this folder and what lies below it wait for so long. A call that waits goes on when the time is made
// shorter.
void slow(const std::string &folder, int ms);
// So many calls have begun to wait, and so many have gone on. Those that wait now are the difference.
int begun();
int ended();

// From now on, or no longer, calls below the folder by the main thread are counted, also where they do not wait.
void count_main_thread(bool is_counted);
int by_main_thread();
// The first of them, for people: "openat /tmp/…".
std::string first_by_main_thread();

void forget_main_thread();

// The state lies in this file from now on, which is made if it is not there.
void share(const std::string &file);

} // namespace slow_disk
