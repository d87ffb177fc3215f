/* SPDX-License-Identifier: LicenseRef-Wengeludo */
// A plant written, balanced and printed from C++17, without an allocation: slices of what the caller has, results by value.
//
//     balance_site
//
// Exit status: 0 a sheet, 1 a refusal.
#include <array>
#include <cstdio>

#include "wengeludo.hpp"

namespace {

// A boiler, a header and two steam lines between them that nobody meters.
constexpr std::array<std::uint8_t, 4> from{0, 1, 1, 2}, to{1, 2, 2, 0}, metered{1, 0, 0, 1}, ranged{};
constexpr std::array<std::uint16_t, 4> weight{10, 0, 0, 10};
constexpr std::array<std::int32_t, 4> reading{100, 0, 0, 98}, low{}, high{};

const char *word(wengeludo::verdict verdict)
{
    switch (verdict) {
    case wengeludo::verdict::pass:
        return "pass";
    case wengeludo::verdict::fail:
        return "fail";
    case wengeludo::verdict::none:
        return "none";
    case wengeludo::verdict::close:
        return "close";
    }
    return "unknown";
}

char letter(std::uint8_t kind)
{
    switch (wengeludo::kind{kind}) {
    case wengeludo::kind::adjusted:
        return 'A';
    case wengeludo::kind::as_read:
        return 'R';
    case wengeludo::kind::given:
        return 'G';
    case wengeludo::kind::withheld:
        return 'W';
    }
    return '?';
}

int refused(const wengeludo::result &why)
{
    std::printf("refused %d: %s\n", static_cast<int>(why.number), why.text());
    return 1;
}

} // namespace

int main()
{
    std::array<std::uint8_t, wengeludo::file_size> file;
    const wengeludo::parts plant{2, from.size(), from, to, metered, weight, reading, ranged, low, high};
    const auto made = wengeludo::write_plant(plant, file);
    if (!made)
        return refused(made);

    std::array<std::uint8_t, wengeludo::sheet_size> sheet;
    std::array<std::uint32_t, wengeludo::offices> lasts{}; // the last sheet number of each office
    const auto drawn = wengeludo::balance_plant({file.data(), made.written}, 0, lasts, sheet);
    if (!drawn)
        return refused(drawn);

    std::array<std::uint8_t, wengeludo::max_streams> kinds;
    std::array<std::int64_t, wengeludo::max_streams> flows;
    const auto total = wengeludo::read_sheet({sheet.data(), drawn.written}, kinds, flows);
    if (!total)
        return refused(total);
    for (std::size_t k = 0; k < total.count; k++)
        if (kinds[k] == WENGELUDO_WITHHELD)
            std::printf("%zu W -\n", k + 1);
        else
            std::printf("%zu %c %lld\n", k + 1, letter(kinds[k]), static_cast<long long>(flows[k]));
    std::printf("total %u %llu %u %s\n", static_cast<unsigned>(total.sheet), static_cast<unsigned long long>(total.cost),
                static_cast<unsigned>(total.degrees), word(total.verdict));
}
