// Times, and the event loop turned by hand so that each turn can be timed.
#pragma once

#include <functional>
#include <string>
#include <vector>

// Milliseconds: by the clock, and of the processor for the thread that asks.
double wall_ms();
double thread_ms();

// Many times of one thing.
struct Times {
    std::vector<double> all;
    double median() const;
    // The median, and in brackets the least and the greatest.
    std::string text() const;
};

// Turns the window's event loop. The longest turn is the longest time in which the window answers to nobody: what it
// costs the processor is the window's own doing, what it takes by the clock is also what else the machine has to do.
class Loop {
  public:
    // Turns until something is so; false where it never comes.
    bool until(const std::function<bool()> &holds);
    // Turns until nothing is left to be done, so everything is painted.
    void until_idle();

    double longest_thread_ms = 0;
    double longest_wall_ms = 0;

  private:
    bool turn();
};
