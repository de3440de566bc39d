// One question, from C++: may a volunteer use a right at a date and time, and if not, when next? ask.rs and ask.py are the same in Rust and Python.
//
//     ask ROTA VOLUNTEER RIGHT YEAR MONTH DAY HOUR MINUTE
//
// Status: 0; 1 for a refusal; 2 for wrong use, a file that cannot be read, or a library that does not fit.
#include <fstream>
#include <iomanip>
#include <iostream>
#include <iterator>
#include <stdexcept>
#include <string>
#include <vector>

#include "softlode.h"

namespace {

using Bytes = std::vector<std::uint8_t>;

// A refusal ends in main, with its text.
struct Refused : std::runtime_error {
    explicit Refused(std::uint32_t refusal) : std::runtime_error("refused " + std::to_string(refusal) + ": " + softlode_text(refusal)) {}
};

template <class Told> Told accepted(Told told) {
    if (told.refusal != 0) throw Refused(told.refusal);
    return told;
}

// The table, in as many bytes as it has.
Bytes table_of(const Bytes &rota) {
    Bytes table(accepted(softlode_rewrite_size(rota.data(), rota.size())).length);
    accepted(softlode_rewrite(rota.data(), rota.size(), table.data(), table.size()));
    return table;
}

std::uint32_t number(const char *text) {
    std::size_t end = 0;
    const unsigned long value = std::stoul(text, &end);
    if (text[end] != '\0' || value > UINT32_MAX) throw std::invalid_argument("not a number: " + std::string(text));
    return static_cast<std::uint32_t>(value);
}

void ask(const Bytes &rota, std::uint32_t volunteer, std::uint32_t right, std::uint32_t minute) {
    const softlode_told told = accepted(softlode_rota_question(rota.data(), rota.size(), volunteer, right, minute));
    if (told.yes) {
        std::cout << "yes, by role " << told.value << '\n';
        return;
    }
    const Bytes table = table_of(rota);
    const softlode_next next = accepted(softlode_table_next(table.data(), table.size(), volunteer, right, minute));
    if (!next.found) {
        std::cout << "no, nor later\n";
        return;
    }
    static const char *const weekdays[] = {"Mon", "Tue", "Wed", "Thu", "Fri", "Sat", "Sun"};
    const softlode_date_time date = accepted(softlode_date(next.minute));
    const auto two = std::setw(2);
    std::cout << "no, next on " << weekdays[date.weekday] << ' ' << std::setfill('0') << date.year << '-' << two << date.month << '-' << two
              << date.day << ' ' << two << date.hour << ':' << two << date.minute << '\n';
}

} // namespace

int main(int count, char **arguments) {
    try {
        if (!softlode_fits()) throw std::runtime_error("the library is of another version");
        if (count != 9) throw std::invalid_argument("usage: ask ROTA VOLUNTEER RIGHT YEAR MONTH DAY HOUR MINUTE");
        std::ifstream file(arguments[1], std::ios::binary);
        const Bytes rota{std::istreambuf_iterator<char>(file), std::istreambuf_iterator<char>()};
        if (!file) throw std::runtime_error("cannot read " + std::string(arguments[1]));
        std::vector<std::uint32_t> n;
        for (int i = 2; i < count; i++) n.push_back(number(arguments[i]));
        ask(rota, n[0], n[1], accepted(softlode_minute(n[2], n[3], n[4], n[5], n[6])).minute);
        return 0;
    } catch (const Refused &refused) {
        std::cerr << "ask: " << refused.what() << '\n';
        return 1;
    } catch (const std::exception &wrong) {
        std::cerr << "ask: " << wrong.what() << '\n';
        return 2;
    }
}
