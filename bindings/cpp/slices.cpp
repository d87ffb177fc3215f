/* SPDX-License-Identifier: LicenseRef-Wengeludo */
// What a slice takes and what it does not, every call of wengeludo.hpp once, empty containers among them; and that nothing is
// allocated: operator new ends the program.
#include <array>
#include <cstdio>
#include <cstdlib>
#include <type_traits>
#include <vector>
#if __cplusplus >= 202002L
#include <span>
#endif

#include "wengeludo.hpp"

namespace w = wengeludo;

void *operator new(std::size_t)
{
    std::puts("slices: something was allocated");
    std::exit(1);
}
void operator delete(void *) noexcept {}
void operator delete(void *, std::size_t) noexcept {}

template <class T, class From> constexpr bool takes = std::is_constructible_v<w::slice<T>, From>;
static_assert(takes<const std::uint8_t, const std::vector<std::uint8_t> &> && takes<const std::uint8_t, std::array<std::uint8_t, 3> &>);
static_assert(takes<std::uint8_t, std::vector<std::uint8_t> &> && takes<const std::uint8_t, w::slice<std::uint8_t>>);
static_assert(!takes<std::uint8_t, const std::vector<std::uint8_t> &>, "what is const is not lent for writing");
static_assert(!takes<const std::uint8_t, std::vector<std::uint16_t> &>, "another kind of element is not taken");
static_assert(!takes<std::uint8_t, w::slice<const std::uint8_t>>);
static_assert(std::is_trivially_copyable_v<w::slice<int>> && std::is_nothrow_default_constructible_v<w::slice<int>>);

static int failed;

static void expect(const char *call, const w::result &result, w::refusal wanted)
{
    if (result.number == wanted)
        return;
    std::printf("slices: %s: %s\n", call, result.text());
    failed = 1;
}

int main()
{
    const std::vector<std::uint8_t> none;
    const std::uint8_t plant[] = {0x01, 0x01, 0x04, 0x00};
    std::array<std::uint8_t, w::file_size> out;
    std::uint8_t streams[w::max_streams];
    std::array<std::int64_t, w::max_streams> flows;
    std::array<std::uint16_t, w::survey_size> counts;
    std::array<std::uint64_t, w::max_streams> costs;
    std::uint32_t lasts[w::offices] = {};
    std::vector<std::uint8_t> nothing;
    expect("balance_plant of nothing", w::balance_plant(none, 0, lasts, out), w::refusal::file_ends);
    expect("balance_plant into nothing", w::balance_plant(plant, 0, lasts, nothing), w::refusal::slice_too_short);
    expect("balance_plant without offices", w::balance_plant(plant, 0, {}, out), w::refusal::slice_too_short);
    expect("balance_plant for a ninth office", w::balance_plant(plant, 8, lasts, out), w::refusal::no_office);
    const auto drawn = w::balance_plant(plant, 0, lasts, out);
    expect("balance_plant", drawn, w::refusal::done);
    expect("read_sheet", w::read_sheet(w::slice(out.data(), out.size()).first(drawn.written), streams, flows), w::refusal::done);
    expect("read_sheet of nothing", w::read_sheet({}, streams, flows), w::refusal::sheet_record);
    expect("write_plant", w::write_plant({1, 0}, out), w::refusal::done);
    expect("write_plant of a stream that is not there", w::write_plant({1, 1}, out), w::refusal::same_place);
    std::array<std::uint8_t, w::max_streams> from, to, metered, ranged;
    std::array<std::uint16_t, w::max_streams> weight;
    std::array<std::int32_t, w::max_streams> reading, low, high;
    expect("read_plant", w::read_plant(plant, {from, to, metered, weight, reading, ranged, low, high}), w::refusal::done);
    expect("read_plant of nothing", w::read_plant(none, {from, to, metered, weight, reading, ranged, low, high}), w::refusal::file_ends);
    expect("read_plant into nothing", w::read_plant(plant, {}), w::refusal::slice_too_short);
    expect("plant_from_transmitter", w::plant_from_transmitter(plant, out), w::refusal::done);
    expect("to_ranged", w::to_ranged(plant, out), w::refusal::done);
    expect("from_ranged", w::from_ranged(plant, out), w::refusal::done);
    expect("meters_to_buy", w::meters_to_buy(plant, {}, streams), w::refusal::done);
    expect("visits", w::visits(plant, streams, costs), w::refusal::done);
    expect("layouts_of", w::layouts_of(plant, counts), w::refusal::done);
    expect("charges", w::charges(plant, {}, streams, flows), w::refusal::done);
    std::array<std::int64_t, w::max_places> numbers;
    const auto placed = w::place_numbers(plant, numbers);
    expect("place_numbers", placed, w::refusal::done);
    std::array<std::uint8_t, w::sheet_size> sheet;
    const auto again = w::balance_plant(plant, 0, lasts, sheet);
    expect("check_sheet", w::check_sheet(plant, {sheet.data(), again.written}, {numbers.data(), placed.count}), w::refusal::done);
    expect("check_sheet without numbers", w::check_sheet(plant, {sheet.data(), again.written}, {}), w::refusal::rule_broken);
    const std::uint8_t there[] = {0, 1}, back[] = {1, 0}, yes[] = {1, 1}, no[] = {0, 0};
    const std::uint64_t weights[] = {30, 10};
    const std::int64_t readings[] = {100, 104}, ends[] = {0, 0}, carried[] = {101, 101}, shown[] = {0, 60};
    const w::wide_parts site{1, 2, there, back, yes, weights, readings, no, ends, ends};
    expect("check_flow", w::check_flow(site, carried, shown), w::refusal::done);
    expect("check_flow of its readings", w::check_flow(site, readings, shown), w::refusal::rule_broken);
    expect("check_flow without numbers", w::check_flow(site, carried, {}), w::refusal::slice_too_short);
    expect("check_flow of no streams", w::check_flow({1, 0}, {}, shown), w::refusal::done);
#if __cplusplus >= 202002L
    expect("a std::span", w::to_ranged(std::span(plant), std::span(out)), w::refusal::done);
#endif
    if (w::version() != w::header_version)
        failed = 1;
    return failed;
}
