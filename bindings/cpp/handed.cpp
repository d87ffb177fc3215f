/* SPDX-License-Identifier: LicenseRef-Wengeludo */
// What the calls of wengeludo.hpp hand over: each slice with its own length, in the header's order, and back what the call wrote. The
// calls stand here in place of the archive's, and note what they are handed; no two lengths are equal.
#include <array>
#include <cstdio>
#include <initializer_list>

#include "wengeludo.hpp"

namespace w = wengeludo;

static_assert(w::sheet_size == WENGELUDO_SHEET_SIZE && w::file_size == WENGELUDO_FILE_SIZE && w::offices == WENGELUDO_OFFICES);
static_assert(w::max_streams == WENGELUDO_MAX_STREAMS && w::max_places == WENGELUDO_MAX_PLACES && w::survey_size == WENGELUDO_SURVEY_SIZE);
static_assert(int(w::kind::adjusted) == 0x11 && int(w::kind::as_read) == 0x12 && int(w::kind::given) == 0x13 && int(w::kind::withheld) == 0x14);
static_assert(int(w::verdict::pass) == 0 && int(w::verdict::fail) == 1 && int(w::verdict::none) == 2 && int(w::verdict::close) == 3);

struct handed {
    const void *first;
    std::size_t number;
};
static std::array<handed, 12> seen;
static std::size_t count_seen;
static int failed;

static void note(const void *first, std::size_t number)
{
    seen[count_seen++] = {first, number};
}

extern "C" {
std::uint32_t wengeludo_version(void)
{
    return 70'503;
}
std::uint8_t wengeludo_balance_plant(const std::uint8_t *file, std::size_t fn, std::uint8_t office, std::uint32_t *lasts, std::size_t ln,
                                     std::uint8_t *sheet, std::size_t sn, std::size_t *written, std::uint64_t *marked)
{
    note(file, fn), note(nullptr, office), note(lasts, ln), note(sheet, sn);
    *written = 501, *marked = 502;
    return 19;
}
std::uint8_t wengeludo_write_plant(std::uint8_t units, std::size_t count, const std::uint8_t *from, std::size_t fn, const std::uint8_t *to,
                                   std::size_t tn, const std::uint8_t *metered, std::size_t mn, const std::uint16_t *weight, std::size_t wn,
                                   const std::int32_t *reading, std::size_t rn, const std::uint8_t *ranged, std::size_t gn,
                                   const std::int32_t *low, std::size_t on, const std::int32_t *high, std::size_t hn, std::uint8_t *file,
                                   std::size_t n, std::size_t *written)
{
    note(nullptr, units), note(nullptr, count), note(from, fn), note(to, tn), note(metered, mn), note(weight, wn), note(reading, rn);
    note(ranged, gn), note(low, on), note(high, hn), note(file, n);
    *written = 503;
    return 0;
}
std::uint8_t wengeludo_read_plant(const std::uint8_t *file, std::size_t n, std::uint8_t *units, std::size_t *count, std::uint8_t *from,
                                  std::size_t fn, std::uint8_t *to, std::size_t tn, std::uint8_t *metered, std::size_t mn,
                                  std::uint16_t *weight, std::size_t wn, std::int32_t *reading, std::size_t rn, std::uint8_t *ranged,
                                  std::size_t gn, std::int32_t *low, std::size_t on, std::int32_t *high, std::size_t hn)
{
    note(file, n), note(from, fn), note(to, tn), note(metered, mn), note(weight, wn), note(reading, rn);
    note(ranged, gn), note(low, on), note(high, hn);
    *units = 17, *count = 518;
    return 12;
}
std::uint8_t wengeludo_read_sheet(const std::uint8_t *bytes, std::size_t bn, std::uint8_t *kinds, std::size_t kn, std::int64_t *flows,
                                  std::size_t fn, std::size_t *count, std::uint8_t *kind, std::uint8_t *office, std::uint32_t *sheet,
                                  std::uint64_t *cost, std::uint8_t *degrees, std::uint8_t *verdict)
{
    note(bytes, bn), note(kinds, kn), note(flows, fn);
    *count = 504, *kind = 31, *office = 5, *sheet = 506, *cost = 507, *degrees = 8, *verdict = 3;
    return 0;
}
static std::uint8_t moved(const std::uint8_t *file, std::size_t fn, std::uint8_t *out, std::size_t on, std::size_t *written, std::uint8_t number)
{
    note(file, fn), note(out, on);
    *written = 509;
    return number;
}
std::uint8_t wengeludo_plant_from_transmitter(const std::uint8_t *f, std::size_t fn, std::uint8_t *o, std::size_t on, std::size_t *n)
{
    return moved(f, fn, o, on, n, 16);
}
std::uint8_t wengeludo_to_ranged(const std::uint8_t *f, std::size_t fn, std::uint8_t *o, std::size_t on, std::size_t *n)
{
    return moved(f, fn, o, on, n, 18);
}
std::uint8_t wengeludo_from_ranged(const std::uint8_t *f, std::size_t fn, std::uint8_t *o, std::size_t on, std::size_t *n)
{
    return moved(f, fn, o, on, n, 20);
}
std::uint8_t wengeludo_meters_to_buy(const std::uint8_t *file, std::size_t fn, const std::uint32_t *prices, std::size_t pn,
                                     std::uint8_t *streams, std::size_t sn, std::size_t *count, std::uint32_t *price)
{
    note(file, fn), note(prices, pn), note(streams, sn);
    *count = 510, *price = 511;
    return 21;
}
std::uint8_t wengeludo_layouts_of(const std::uint8_t *file, std::size_t fn, std::uint16_t *counts, std::size_t cn, std::size_t *count)
{
    note(file, fn), note(counts, cn);
    *count = 512;
    return 23;
}
std::uint8_t wengeludo_visits(const std::uint8_t *file, std::size_t fn, std::uint8_t *streams, std::size_t sn, std::uint64_t *costs,
                              std::size_t cn, std::size_t *count)
{
    note(file, fn), note(streams, sn), note(costs, cn);
    *count = 513;
    return 3;
}
std::uint8_t wengeludo_charges(const std::uint8_t *file, std::size_t fn, const std::uint16_t *rates, std::size_t rn, std::uint8_t *streams,
                               std::size_t sn, std::int64_t *charges, std::size_t cn, std::size_t *count, std::int64_t *bill)
{
    note(file, fn), note(rates, rn), note(streams, sn), note(charges, cn);
    *count = 514, *bill = -515;
    return 24;
}
std::uint8_t wengeludo_check_sheet(const std::uint8_t *plant, std::size_t pn, const std::uint8_t *sheet, std::size_t sn,
                                   const std::int64_t *numbers, std::size_t nn)
{
    note(plant, pn), note(sheet, sn), note(numbers, nn);
    return 26;
}
std::uint8_t wengeludo_check_flow(std::uint8_t units, std::size_t count, const std::uint8_t *from, std::size_t fn, const std::uint8_t *to,
                                  std::size_t tn, const std::uint8_t *metered, std::size_t mn, const std::uint64_t *weight, std::size_t wn,
                                  const std::int64_t *reading, std::size_t rn, const std::uint8_t *ranged, std::size_t gn,
                                  const std::int64_t *low, std::size_t on, const std::int64_t *high, std::size_t hn,
                                  const std::int64_t *flow, std::size_t wide, const std::int64_t *numbers, std::size_t nn)
{
    note(nullptr, units), note(nullptr, count), note(from, fn), note(to, tn), note(metered, mn), note(weight, wn), note(reading, rn);
    note(ranged, gn), note(low, on), note(high, hn), note(flow, wide), note(numbers, nn);
    return 18;
}
std::uint8_t wengeludo_place_numbers(const std::uint8_t *file, std::size_t fn, std::int64_t *numbers, std::size_t nn, std::size_t *count)
{
    note(file, fn), note(numbers, nn);
    *count = 516;
    return 1;
}
}

// Whether the last call was handed these, in this order, and answered as it should.
static void expect(const char *call, bool answered, std::initializer_list<handed> wanted)
{
    bool same = answered && count_seen == wanted.size();
    for (std::size_t k = 0; same && k < count_seen; k++)
        same = seen[k].first == wanted.begin()[k].first && seen[k].number == wanted.begin()[k].number;
    if (!same) {
        std::printf("handed: %s\n", call);
        failed = 1;
    }
    count_seen = 0;
}

template <class T> static handed of(w::slice<T> slice)
{
    return {slice.data(), slice.size()};
}
static handed of(std::size_t number)
{
    return {nullptr, number};
}

int main()
{
    static std::uint8_t b[64];
    static std::uint16_t h[64];
    static std::uint32_t u[64];
    static std::int32_t i[64];
    static std::int64_t l[64];
    static std::uint64_t q[64];
    const w::bytes file(b, 11), sheet(b + 1, 12);
    const w::slice<std::uint8_t> out(b + 2, 13), kinds(b + 3, 14);
    const w::slice<std::uint32_t> lasts(u, 15);
    const w::slice<const std::uint32_t> prices(u + 1, 16);
    const w::slice<std::int64_t> flows(l, 17);
    const w::slice<const std::int64_t> numbers(l + 1, 18);
    const w::slice<std::uint64_t> costs(q, 19);
    const w::slice<std::uint16_t> counts(h, 20);
    const w::slice<const std::uint16_t> rates(h + 1, 21);
    const auto drawn = w::balance_plant(file, 7, lasts, out);
    expect("balance_plant", drawn.number == w::refusal::no_flow && drawn.written == 501 && drawn.marked == 502 && !drawn,
           {of(file), of(7), of(lasts), of(out)});
    const w::parts p{3, 9, {b + 4, 22}, {b + 5, 23}, {b + 6, 24}, {h + 2, 25}, {i, 26}, {b + 7, 27}, {i + 1, 28}, {i + 2, 29}};
    const auto file_of = w::write_plant(p, out);
    expect("write_plant", file_of && file_of.written == 503, {of(3), of(9), of(p.from), of(p.to), of(p.metered), of(p.weight), of(p.reading),
                                                             of(p.ranged), of(p.low), of(p.high), of(out)});
    const w::parts_room room{{b + 12, 38}, {b + 13, 39}, {b + 14, 40}, {h + 3, 41}, {i + 3, 42}, {b + 15, 43}, {i + 4, 44}, {i + 5, 45}};
    const auto parted = w::read_plant(file, room);
    expect("read_plant", parted.number == w::refusal::after_end && parted.units == 17 && parted.count == 518,
           {of(file), of(room.from), of(room.to), of(room.metered), of(room.weight), of(room.reading), of(room.ranged), of(room.low),
            of(room.high)});
    const auto read = w::read_sheet(sheet, kinds, flows);
    expect("read_sheet", read && read.count == 504 && read.kind == 31 && read.office == 5 && read.sheet == 506 && read.cost == 507 && read.degrees == 8
                             && read.verdict == w::verdict::close, {of(sheet), of(kinds), of(flows)});
    const auto translated = w::plant_from_transmitter(file, out);
    expect("plant_from_transmitter", translated.number == w::refusal::value && translated.written == 509, {of(file), of(out)});
    const auto there = w::to_ranged(file, out);
    expect("to_ranged", there.number == w::refusal::range && there.written == 509, {of(file), of(out)});
    const auto home = w::from_ranged(file, out);
    expect("from_ranged", home.number == w::refusal::narrower && home.written == 509, {of(file), of(out)});
    const auto bought = w::meters_to_buy(file, prices, out);
    expect("meters_to_buy", bought.number == w::refusal::prices && bought.count == 510 && bought.price == 511, {of(file), of(prices), of(out)});
    const auto surveyed = w::layouts_of(file, counts);
    expect("layouts_of", surveyed.number == w::refusal::too_many_to_survey && surveyed.count == 512, {of(file), of(counts)});
    const auto visited = w::visits(file, out, costs);
    expect("visits", visited.number == w::refusal::file_ends && visited.count == 513, {of(file), of(out), of(costs)});
    const auto billed = w::charges(file, rates, out, flows);
    expect("charges", billed.number == w::refusal::rates && billed.count == 514 && billed.bill == -515, {of(file), of(rates), of(out), of(flows)});
    expect("check_sheet", w::check_sheet(file, sheet, numbers).number == w::refusal::rule_broken, {of(file), of(sheet), of(numbers)});
    const w::wide_parts wide{4, 8, {b + 8, 30}, {b + 9, 31}, {b + 10, 32}, {q + 1, 33}, {l + 2, 34}, {b + 11, 35}, {l + 3, 36}, {l + 4, 37}};
    expect("check_flow", w::check_flow(wide, flows, numbers).number == w::refusal::range,
           {of(4), of(8), of(wide.from), of(wide.to), of(wide.metered), of(wide.weight), of(wide.reading), of(wide.ranged), of(wide.low),
            of(wide.high), of(flows), of(numbers)});
    const auto placed = w::place_numbers(file, flows);
    expect("place_numbers", placed.number == w::refusal::slice_too_short && placed.count == 516, {of(file), of(flows)});
    expect("version", w::version() == 70'503, {});
    expect("first", out.first(5).size() == 5 && out.first(13).size() == 13 && out.first(14).size() == 13 && out.first(5).data() == out.data(), {});
    expect("empty", w::bytes{}.empty() && !out.empty() && w::bytes{}.size() == 0 && w::bytes{}.data() == nullptr, {});
    expect("begin and end", out.begin() == out.data() && out.end() == out.data() + 13 && &out[4] == out.data() + 4, {});
    const w::parts none{};
    expect("parts of nothing", none.units == 0 && none.count == 0 && none.from.empty() && none.high.empty(), {});
    expect("text", placed.text()[0] == 'a' && placed.text() == w::text(w::refusal::slice_too_short), {});
    return failed;
}
