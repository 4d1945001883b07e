#include "figures.h"

#include <algorithm>

namespace client {

namespace {

const char *const minus = "−";
const char *const ellipsis = "…";

std::string digits(Wide number) {
    std::string reversed;
    do {
        reversed.push_back(static_cast<char>('0' + static_cast<int>(number % 10)));
        number /= 10;
    } while (number > 0);
    return {reversed.rbegin(), reversed.rend()};
}

// Digits with a comma before every three, counted from the end.
std::string grouped(Wide number) {
    const std::string plain = digits(number);
    std::string text;
    for (std::size_t at = 0; at < plain.size(); ++at) {
        if (at > 0 && (plain.size() - at) % 3 == 0) {
            text.push_back(',');
        }
        text.push_back(plain[at]);
    }
    return text;
}

Wide magnitude(std::int64_t number) {
    return number < 0 ? -static_cast<Wide>(number) : static_cast<Wide>(number);
}

std::string sign(std::int64_t number) {
    return number < 0 ? minus : "";
}

// A number of small coins in yuan, with all its places.
std::string in_yuan(std::int64_t coins, unsigned places) {
    Wide in_a_yuan = 1;
    for (unsigned place = 0; place < places; ++place) {
        in_a_yuan *= 10;
    }
    return sign(coins) + decimal(magnitude(coins), in_a_yuan, places, places);
}

std::string change_of(std::int64_t by, const std::string &text) {
    return by == 0 ? "=" : by > 0 ? "+" + text : text;
}

} // namespace

std::string decimal(Wide numerator, Wide denominator, unsigned least, unsigned most) {
    std::string places;
    Wide rest = numerator % denominator;
    while (places.size() < most && (rest > 0 || places.size() < least)) {
        rest *= 10;
        places.push_back(static_cast<char>('0' + static_cast<int>(rest / denominator)));
        rest %= denominator;
    }
    const std::string point = places.empty() ? "" : ".";
    return grouped(numerator / denominator) + point + places + (rest > 0 ? ellipsis : "");
}

std::string yuan(Wide fen_numerator, Wide denominator) {
    return decimal(fen_numerator, denominator * 100, 2, 4);
}

std::string text(std::int64_t number) {
    return sign(number) + grouped(magnitude(number));
}

std::string text(Kwh energy) {
    return text(energy.count);
}

std::string text(Fen money) {
    return in_yuan(money.count, 2);
}

std::string text(Li price) {
    return in_yuan(price.count, 3);
}

std::string text(Hao tariff) {
    return in_yuan(tariff.count, 4);
}

std::string change(Fen by) {
    return change_of(by.count, text(by));
}

std::string change(Kwh by) {
    return change_of(by.count, text(by));
}

} // namespace client
