// The four measures of the rules, each a type of its own, and figures as people read them.
//
// Energy is in kWh, prices in li and tariffs in hao for each kWh, money in fen: 1 yuan = 100 fen = 1,000 li = 10,000
// hao. Everything is a whole number. What is shown in yuan is cut or rounded only where a rule says so, never for the
// screen.
#pragma once

#include <compare>
#include <cstdint>
#include <string>

namespace client {

template <class Tag>
struct Measure {
    std::int64_t count = 0;

    friend constexpr auto operator<=>(Measure, Measure) = default;
    friend constexpr Measure operator+(Measure a, Measure b) { return {a.count + b.count}; }
    friend constexpr Measure operator-(Measure a, Measure b) { return {a.count - b.count}; }
    constexpr Measure operator-() const { return {-count}; }
    constexpr Measure &operator+=(Measure more) { return *this = *this + more; }
    constexpr Measure &operator-=(Measure less) { return *this = *this - less; }
};

using Kwh = Measure<struct OfEnergy>;
using Li = Measure<struct OfPrices>;
using Hao = Measure<struct OfTariffs>;
using Fen = Measure<struct OfMoney>;

// Products of two figures: no product of the rules reaches 2^127.
__extension__ typedef __int128 Wide;

// 1234567 is "1,234,567", and a number below 0 has a true minus sign: "−5".
std::string text(std::int64_t number);
// "45,318".
std::string text(Kwh energy);
// In yuan: "1,154.93", "−0.05".
std::string text(Fen money);
// In yuan for each kWh: "0.200".
std::string text(Li price);
// In yuan for each kWh: "0.3545".
std::string text(Hao tariff);

// What a figure went up or down by: "+9.91", "−9.91", and "=" where it stayed.
std::string change(Fen by);
std::string change(Kwh by);

// numerator / denominator, which is above 0, as a decimal. It has `least` places at least and `most` at most; what lies
// beyond them is cut, not rounded, and an ellipsis says so: "812.7847…". Neither may be below 0.
std::string decimal(Wide numerator, Wide denominator, unsigned least, unsigned most);

// A quotient of fen, shown in yuan: at least two places, at most four.
std::string yuan(Wide fen_numerator, Wide denominator);

} // namespace client
