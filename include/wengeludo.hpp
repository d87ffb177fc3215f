/* SPDX-License-Identifier: LicenseRef-Wengeludo */
// Steam and condensate balance sheets for C++17: the calls of wengeludo_balance.h with slices in place of pointers and lengths, and
// results in place of pointers to numbers. Header only; nothing is allocated and nothing is thrown.
//
// What each call reads, returns, writes and leaves as it was stands in wengeludo_balance.h. A slice takes an array, a std::array, a
// std::vector, a std::span or anything else with data() and size(), empty ones among them.
//
//     std::array<std::uint8_t, wengeludo::sheet_size> sheet;
//     std::array<std::uint32_t, wengeludo::offices> lasts{}; // the last sheet number of each office
//     if (auto drawn = wengeludo::balance_plant(file, 0, lasts, sheet))
//         keep(sheet.data(), drawn.written);
//     else
//         std::puts(drawn.text());
#ifndef WENGELUDO_HPP
#define WENGELUDO_HPP

#include <cstddef>
#include <cstdint>
#include <iterator>
#include <type_traits>

#include "wengeludo_balance.h"

namespace wengeludo {

inline constexpr std::size_t sheet_size = WENGELUDO_SHEET_SIZE;
inline constexpr std::size_t file_size = WENGELUDO_FILE_SIZE;
inline constexpr std::size_t offices = WENGELUDO_OFFICES;
inline constexpr std::size_t max_streams = WENGELUDO_MAX_STREAMS;
inline constexpr std::size_t max_places = WENGELUDO_MAX_UNITS + 1;
inline constexpr std::size_t survey_size = WENGELUDO_SURVEY_SIZE;

// The version of the headers; version() is that of the library.
inline constexpr std::uint32_t header_version = WENGELUDO_VERSION;

[[nodiscard]] inline std::uint32_t version() noexcept
{
    return wengeludo_version();
}

// What a call returns: done, or why it was refused. Another library may return a number that is not named here.
enum class refusal : std::uint8_t {
    // refusals: enum, from tools/refusals.tsv
    done = WENGELUDO_DONE,
    slice_too_short = WENGELUDO_SLICE_TOO_SHORT,
    no_sheet_number = WENGELUDO_NO_SHEET_NUMBER,
    file_ends = WENGELUDO_FILE_ENDS,
    kind = WENGELUDO_KIND,
    too_many_streams = WENGELUDO_TOO_MANY_STREAMS,
    units = WENGELUDO_UNITS,
    place = WENGELUDO_PLACE,
    same_place = WENGELUDO_SAME_PLACE,
    weight = WENGELUDO_WEIGHT,
    reading = WENGELUDO_READING,
    end_count = WENGELUDO_END_COUNT,
    after_end = WENGELUDO_AFTER_END,
    sheet_record = WENGELUDO_SHEET_RECORD,
    sheet_total = WENGELUDO_SHEET_TOTAL,
    after_total = WENGELUDO_AFTER_TOTAL,
    value = WENGELUDO_VALUE,
    deviation = WENGELUDO_DEVIATION,
    range = WENGELUDO_RANGE,
    no_flow = WENGELUDO_NO_FLOW,
    narrower = WENGELUDO_NARROWER,
    prices = WENGELUDO_PRICES,
    no_office = WENGELUDO_NO_OFFICE,
    too_many_to_survey = WENGELUDO_TOO_MANY_TO_SURVEY,
    rates = WENGELUDO_RATES,
    charge_withheld = WENGELUDO_CHARGE_WITHHELD,
    rule_broken = WENGELUDO_RULE_BROKEN,
    // refusals: end of enum
};

[[nodiscard]] inline const char *text(refusal number) noexcept
{
    return wengeludo_refusal_text(static_cast<std::uint8_t>(number));
}

// The kinds of record on a sheet, which tell the class of a stream.
enum class kind : std::uint8_t {
    adjusted = WENGELUDO_ADJUSTED,
    as_read = WENGELUDO_AS_READ,
    given = WENGELUDO_GIVEN,
    withheld = WENGELUDO_WITHHELD,
};

enum class verdict : std::uint8_t {
    pass = WENGELUDO_PASS,
    fail = WENGELUDO_FAIL,
    none = WENGELUDO_NONE,
    close = WENGELUDO_CLOSE,
};

// So many elements from a place on; it owns nothing.
template <class T> class slice {
    T *first_ = nullptr;
    std::size_t size_ = 0;

    template <class C> using element = std::remove_pointer_t<decltype(std::data(std::declval<C &>()))>;

  public:
    constexpr slice() noexcept = default;
    constexpr slice(T *first, std::size_t size) noexcept : first_(first), size_(size) {}

    // Of an array or a container whose elements are T, or T without const.
    template <class C, class = std::enable_if_t<std::is_convertible_v<element<C> (*)[], T (*)[]>>>
    constexpr slice(C &&c) noexcept : first_(std::data(c)), size_(std::size(c))
    {
    }

    [[nodiscard]] constexpr T *data() const noexcept { return first_; }
    [[nodiscard]] constexpr std::size_t size() const noexcept { return size_; }
    [[nodiscard]] constexpr bool empty() const noexcept { return size_ == 0; }
    [[nodiscard]] constexpr T *begin() const noexcept { return first_; }
    [[nodiscard]] constexpr T *end() const noexcept { return first_ + size_; }
    [[nodiscard]] constexpr T &operator[](std::size_t k) const noexcept { return first_[k]; }

    // The first elements, as many as there are of the number asked for.
    [[nodiscard]] constexpr slice first(std::size_t number) const noexcept { return {first_, number < size_ ? number : size_}; }
};

using bytes = slice<const std::uint8_t>;

// What every result has: the number, and whether it is 0.
struct result {
    refusal number;
    [[nodiscard]] explicit operator bool() const noexcept { return number == refusal::done; }
    [[nodiscard]] const char *text() const noexcept { return wengeludo::text(number); }
};

// How many bytes were written, 0 where the call was refused.
struct written_result : result {
    std::size_t written;
};

struct sheet_result : written_result {
    std::uint64_t marked; // with refusal::no_flow: bit u for place u
};

// The sheet call, for an office.
[[nodiscard]] inline sheet_result balance_plant(bytes file, std::uint8_t office, slice<std::uint32_t> lasts,
                                                slice<std::uint8_t> sheet) noexcept
{
    sheet_result r{};
    r.number = refusal{wengeludo_balance_plant(file.data(), file.size(), office, lasts.data(), lasts.size(), sheet.data(),
                                               sheet.size(), &r.written, &r.marked)};
    return r;
}

// The parts of a plant, one slice for each; stream k, counted from 1, stands at index k - 1 of each.
struct parts {
    std::uint8_t units = 0;
    std::size_t count = 0;
    slice<const std::uint8_t> from{}, to{}, metered{};
    slice<const std::uint16_t> weight{};
    slice<const std::int32_t> reading{};
    slice<const std::uint8_t> ranged{};
    slice<const std::int32_t> low{}, high{};
};

// The plant writer.
[[nodiscard]] inline written_result write_plant(const parts &p, slice<std::uint8_t> file) noexcept
{
    written_result r{};
    r.number = refusal{wengeludo_write_plant(
        p.units, p.count, p.from.data(), p.from.size(), p.to.data(), p.to.size(), p.metered.data(), p.metered.size(),
        p.weight.data(), p.weight.size(), p.reading.data(), p.reading.size(), p.ranged.data(), p.ranged.size(), p.low.data(),
        p.low.size(), p.high.data(), p.high.size(), file.data(), file.size(), &r.written)};
    return r;
}

// Where the plant reader puts a plant's parts: as parts has them, to be written.
struct parts_room {
    slice<std::uint8_t> from{}, to{}, metered{};
    slice<std::uint16_t> weight{};
    slice<std::int32_t> reading{};
    slice<std::uint8_t> ranged{};
    slice<std::int32_t> low{}, high{};
};

// What the plant reader hands over beside the eight slices; both 0 where it refuses.
struct plant_result : result {
    std::uint8_t units;
    std::size_t count;
};

// The plant reader.
[[nodiscard]] inline plant_result read_plant(bytes file, const parts_room &p) noexcept
{
    plant_result r{};
    r.number = refusal{wengeludo_read_plant(
        file.data(), file.size(), &r.units, &r.count, p.from.data(), p.from.size(), p.to.data(), p.to.size(), p.metered.data(),
        p.metered.size(), p.weight.data(), p.weight.size(), p.reading.data(), p.reading.size(), p.ranged.data(), p.ranged.size(),
        p.low.data(), p.low.size(), p.high.data(), p.high.size())};
    return r;
}

// What the sheet reader hands over beside its two slices; all 0 where it refuses.
struct read_result : result {
    std::size_t count;
    std::uint8_t kind; // of the total
    std::uint8_t office;
    std::uint32_t sheet;
    std::uint64_t cost;
    std::uint8_t degrees;
    wengeludo::verdict verdict;
};

// The sheet reader. The kinds are numbers of kind.
[[nodiscard]] inline read_result read_sheet(bytes sheet, slice<std::uint8_t> kinds, slice<std::int64_t> flows) noexcept
{
    read_result r{};
    std::uint8_t told = 0;
    r.number = refusal{wengeludo_read_sheet(sheet.data(), sheet.size(), kinds.data(), kinds.size(), flows.data(), flows.size(),
                                            &r.count, &r.kind, &r.office, &r.sheet, &r.cost, &r.degrees, &told)};
    r.verdict = wengeludo::verdict{told};
    return r;
}

// The translator.
[[nodiscard]] inline written_result plant_from_transmitter(bytes file, slice<std::uint8_t> plant) noexcept
{
    written_result r{};
    r.number = refusal{wengeludo_plant_from_transmitter(file.data(), file.size(), plant.data(), plant.size(), &r.written)};
    return r;
}

// The moves.
[[nodiscard]] inline written_result to_ranged(bytes file, slice<std::uint8_t> out) noexcept
{
    written_result r{};
    r.number = refusal{wengeludo_to_ranged(file.data(), file.size(), out.data(), out.size(), &r.written)};
    return r;
}

[[nodiscard]] inline written_result from_ranged(bytes file, slice<std::uint8_t> out) noexcept
{
    written_result r{};
    r.number = refusal{wengeludo_from_ranged(file.data(), file.size(), out.data(), out.size(), &r.written)};
    return r;
}

struct purchase_result : result {
    std::size_t count;
    std::uint32_t price;
};

// Meters to buy.
[[nodiscard]] inline purchase_result meters_to_buy(bytes file, slice<const std::uint32_t> prices,
                                                   slice<std::uint8_t> streams) noexcept
{
    purchase_result r{};
    r.number = refusal{wengeludo_meters_to_buy(file.data(), file.size(), prices.data(), prices.size(), streams.data(),
                                               streams.size(), &r.count, &r.price)};
    return r;
}

struct count_result : result {
    std::size_t count;
};

// Meters worth a visit.
[[nodiscard]] inline count_result visits(bytes file, slice<std::uint8_t> streams, slice<std::uint64_t> costs) noexcept
{
    count_result r{};
    r.number = refusal{wengeludo_visits(file.data(), file.size(), streams.data(), streams.size(), costs.data(), costs.size(),
                                        &r.count)};
    return r;
}

// The survey of meter layouts.
[[nodiscard]] inline count_result layouts_of(bytes file, slice<std::uint16_t> counts) noexcept
{
    count_result r{};
    r.number = refusal{wengeludo_layouts_of(file.data(), file.size(), counts.data(), counts.size(), &r.count)};
    return r;
}

struct bill_result : count_result {
    std::int64_t bill; // in cents
};

// Steam charges, in cents.
[[nodiscard]] inline bill_result charges(bytes file, slice<const std::uint16_t> rates, slice<std::uint8_t> streams,
                                         slice<std::int64_t> cents) noexcept
{
    bill_result r{};
    r.number = refusal{wengeludo_charges(file.data(), file.size(), rates.data(), rates.size(), streams.data(), streams.size(),
                                         cents.data(), cents.size(), &r.count, &r.bill)};
    return r;
}

// The check of a sheet that was drawn up elsewhere, with a number for each place.
[[nodiscard]] inline result check_sheet(bytes plant, bytes sheet, slice<const std::int64_t> numbers) noexcept
{
    return {refusal{wengeludo_check_sheet(plant.data(), plant.size(), sheet.data(), sheet.size(), numbers.data(), numbers.size())}};
}

// The parts of a plant with wide weights and readings, one slice for each; stream k, counted from 1, stands at index k - 1 of each.
struct wide_parts {
    std::uint8_t units = 0;
    std::size_t count = 0;
    slice<const std::uint8_t> from{}, to{}, metered{};
    slice<const std::uint64_t> weight{};
    slice<const std::int64_t> reading{};
    slice<const std::uint8_t> ranged{};
    slice<const std::int64_t> low{}, high{};
};

// The check of a flow that was found elsewhere: a flow for each stream, a number for each place.
[[nodiscard]] inline result check_flow(const wide_parts &p, slice<const std::int64_t> flow, slice<const std::int64_t> numbers) noexcept
{
    return {refusal{wengeludo_check_flow(
        p.units, p.count, p.from.data(), p.from.size(), p.to.data(), p.to.size(), p.metered.data(), p.metered.size(),
        p.weight.data(), p.weight.size(), p.reading.data(), p.reading.size(), p.ranged.data(), p.ranged.size(), p.low.data(),
        p.low.size(), p.high.data(), p.high.size(), flow.data(), flow.size(), numbers.data(), numbers.size())}};
}

// Numbers of the places, with which the sheets of a plant file pass that check.
[[nodiscard]] inline count_result place_numbers(bytes file, slice<std::int64_t> numbers) noexcept
{
    count_result r{};
    r.number = refusal{wengeludo_place_numbers(file.data(), file.size(), numbers.data(), numbers.size(), &r.count)};
    return r;
}

} // namespace wengeludo

#endif
