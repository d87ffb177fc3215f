/* SPDX-License-Identifier: LicenseRef-Wengeludo */
// What a peer of the benchmark exports, and how it reads a plant file.
#ifndef WENGELUDO_BENCH_PEER_H
#define WENGELUDO_BENCH_PEER_H

#include <cstddef>
#include <cstdint>

namespace peer {

constexpr int MAX_UNITS = 32;
constexpr int PLACES = MAX_UNITS + 1;
constexpr int MAX_STREAMS = 96;

// What solve_plant returns beside 0: no flow in range, a file that is no plant's, a plant that the peer has no means for.
constexpr std::uint8_t NO_FLOW = 19;
constexpr std::uint8_t BAD_FILE = 254;
constexpr std::uint8_t NO_MEANS = 255;

// The kinds of sheet records.
constexpr std::uint8_t ADJUSTED = 0x11, AS_READ = 0x12, GIVEN = 0x13, WITHHELD = 0x14;

struct Stream {
    int from, to;
    bool metered, ranged;
    std::int64_t weight, reading, low, high;
};

struct Plant {
    int units = 0, count = 0;
    bool ranged = false;
    Stream streams[MAX_STREAMS];
};

// A number of so many bytes, the high byte first, in two's complement.
inline std::int64_t number(const std::uint8_t *at, int bytes) {
    std::uint64_t value = 0;
    for (int k = 0; k < bytes; k++) value = value << 8 | at[k];
    const std::uint64_t sign = std::uint64_t{1} << (8 * bytes - 1);
    return static_cast<std::int64_t>(value) - static_cast<std::int64_t>((value & sign) << 1);
}

// The bytes of a stream record, its kind among them; 0 for any other kind.
inline std::size_t record_size(std::uint8_t kind) {
    return kind == 0x02 ? 9 : kind == 0x03 ? 3 : kind == 0x06 ? 17 : 0;
}

inline Stream stream_at(const std::uint8_t *at) {
    Stream s{at[1], at[2], at[0] != 0x03, at[0] == 0x06, 0, 0, 0, 0};
    if (s.metered) {
        s.weight = number(at + 3, 2);
        s.reading = number(at + 5, 4);
    }
    if (s.ranged) {
        s.low = number(at + 9, 4);
        s.high = number(at + 13, 4);
    }
    return s;
}

inline bool allowed(const Stream &s, int units) {
    return s.from <= units && s.to <= units && s.from != s.to && (!s.metered || (s.weight >= 1 && s.weight <= 1000)) &&
           s.reading >= -4000000 && s.reading <= 4000000 && s.low <= s.high && s.low >= -2000000000 && s.high <= 2000000000;
}

// The plant of a file; false where the file is no plant's.
inline bool read(const std::uint8_t *file, std::size_t length, Plant &plant) {
    if (length < 4 || file[0] != 0x01 || file[1] < 1 || file[1] > MAX_UNITS) return false;
    plant.units = file[1];
    std::size_t at = 2;
    while (at < length && record_size(file[at]) > 0) {
        const std::size_t size = record_size(file[at]);
        if (plant.count == MAX_STREAMS || length - at < size) return false;
        const Stream s = stream_at(file + at);
        if (!allowed(s, plant.units)) return false;
        plant.ranged |= s.ranged;
        plant.streams[plant.count++] = s;
        at += size;
    }
    return length - at == 2 && file[at] == 0x04 && file[at + 1] == plant.count;
}

}  // namespace peer

// From a plant file to a flow for each stream, and the kind of its sheet record where the peer tells classes (else 0). Both arrays
// have MAX_STREAMS elements. The result is 0 or one of the numbers above.
extern "C" std::uint8_t solve_plant(const std::uint8_t *file, std::size_t length, std::uint8_t *kinds, double *flows);

#endif
