// SPDX-License-Identifier: LicenseRef-Wengeludo
//! The calls as the archive has them, on slices and numbers; the result is 0 or a refusal's number.
//!
//! The rest of this crate is easier to use. These are for a caller who keeps numbers, and for tests.

extern "C" {
    fn wengeludo_version() -> u32;
    fn wengeludo_balance_plant(
        file: *const u8,
        file_length: usize,
        office: u8,
        lasts: *mut u32,
        lasts_length: usize,
        sheet: *mut u8,
        sheet_length: usize,
        written: *mut usize,
        marked: *mut u64,
    ) -> u8;
    fn wengeludo_write_plant(
        units: u8,
        count: usize,
        from: *const u8,
        from_length: usize,
        to: *const u8,
        to_length: usize,
        metered: *const u8,
        metered_length: usize,
        weight: *const u16,
        weight_length: usize,
        reading: *const i32,
        reading_length: usize,
        ranged: *const u8,
        ranged_length: usize,
        low: *const i32,
        low_length: usize,
        high: *const i32,
        high_length: usize,
        file: *mut u8,
        file_length: usize,
        written: *mut usize,
    ) -> u8;
    fn wengeludo_read_plant(
        file: *const u8,
        file_length: usize,
        units: *mut u8,
        count: *mut usize,
        from: *mut u8,
        from_length: usize,
        to: *mut u8,
        to_length: usize,
        metered: *mut u8,
        metered_length: usize,
        weight: *mut u16,
        weight_length: usize,
        reading: *mut i32,
        reading_length: usize,
        ranged: *mut u8,
        ranged_length: usize,
        low: *mut i32,
        low_length: usize,
        high: *mut i32,
        high_length: usize,
    ) -> u8;
    fn wengeludo_read_sheet(
        bytes: *const u8,
        bytes_length: usize,
        kinds: *mut u8,
        kinds_length: usize,
        flows: *mut i64,
        flows_length: usize,
        count: *mut usize,
        kind: *mut u8,
        office: *mut u8,
        sheet: *mut u32,
        cost: *mut u64,
        degrees: *mut u8,
        verdict: *mut u8,
    ) -> u8;
    fn wengeludo_plant_from_transmitter(
        file: *const u8,
        file_length: usize,
        plant: *mut u8,
        plant_length: usize,
        written: *mut usize,
    ) -> u8;
    fn wengeludo_to_ranged(file: *const u8, file_length: usize, out: *mut u8, out_length: usize, written: *mut usize) -> u8;
    fn wengeludo_from_ranged(file: *const u8, file_length: usize, out: *mut u8, out_length: usize, written: *mut usize) -> u8;
    fn wengeludo_meters_to_buy(
        file: *const u8,
        file_length: usize,
        prices: *const u32,
        prices_length: usize,
        streams: *mut u8,
        streams_length: usize,
        count: *mut usize,
        price: *mut u32,
    ) -> u8;
    fn wengeludo_layouts_of(file: *const u8, file_length: usize, counts: *mut u16, counts_length: usize, count: *mut usize)
        -> u8;
    fn wengeludo_visits(
        file: *const u8,
        file_length: usize,
        streams: *mut u8,
        streams_length: usize,
        costs: *mut u64,
        costs_length: usize,
        count: *mut usize,
    ) -> u8;
    fn wengeludo_charges(
        file: *const u8,
        file_length: usize,
        rates: *const u16,
        rates_length: usize,
        streams: *mut u8,
        streams_length: usize,
        charges: *mut i64,
        charges_length: usize,
        count: *mut usize,
        bill: *mut i64,
    ) -> u8;
    fn wengeludo_check_sheet(
        plant: *const u8,
        plant_length: usize,
        sheet: *const u8,
        sheet_length: usize,
        numbers: *const i64,
        numbers_length: usize,
    ) -> u8;
    fn wengeludo_check_flow(
        units: u8,
        count: usize,
        from: *const u8,
        from_length: usize,
        to: *const u8,
        to_length: usize,
        metered: *const u8,
        metered_length: usize,
        weight: *const u64,
        weight_length: usize,
        reading: *const i64,
        reading_length: usize,
        ranged: *const u8,
        ranged_length: usize,
        low: *const i64,
        low_length: usize,
        high: *const i64,
        high_length: usize,
        flow: *const i64,
        flow_length: usize,
        numbers: *const i64,
        numbers_length: usize,
    ) -> u8;
    fn wengeludo_place_numbers(
        file: *const u8,
        file_length: usize,
        numbers: *mut i64,
        numbers_length: usize,
        count: *mut usize,
    ) -> u8;
}

// A length is 64 bits wide in the archive.
const _: () = assert!(usize::BITS == 64);

/// The version of the archive: 10,000 is 1.0.0.
pub fn version() -> u32 {
    // SAFETY: the call takes nothing and reads nothing.
    unsafe { wengeludo_version() }
}

/// The sheet call of an office, 0 to 7; `lasts` are the offices' last sheet numbers. 0: the sheet is at the front of `sheet`,
/// `written` its length, the office's last number one higher, and all others are as they were. Another number: a refusal; `written`
/// is 0, `sheet` and `lasts` are as they were. 19 hands over marked places as well, bit u of `marked` for place u: they must take in
/// more than they can let out. Every other call leaves 0 in `marked`. Fewer than eight last numbers are refused as 1; those past the
/// eighth stay as they are.
pub fn balance_plant(file: &[u8], office: u8, lasts: &mut [u32], sheet: &mut [u8], written: &mut usize, marked: &mut u64) -> u8 {
    // SAFETY: each pointer comes from a reference or a slice with its length, the borrows keep what is written apart
    // from all else, and the call asks nothing more of its arguments.
    unsafe {
        wengeludo_balance_plant(
            file.as_ptr(),
            file.len(),
            office,
            lasts.as_mut_ptr(),
            lasts.len(),
            sheet.as_mut_ptr(),
            sheet.len(),
            written,
            marked,
        )
    }
}

/// The parts of a plant, one slice for each; stream k, counted from 1, stands at index k - 1 of each.
#[derive(Clone, Copy, Debug)]
pub struct Parts<'a> {
    /// How many units.
    pub units: u8,
    /// How many streams.
    pub count: usize,
    /// Where each stream comes from; 0 is the outside.
    pub from: &'a [u8],
    /// Where each stream goes.
    pub to: &'a [u8],
    /// 0 for an unmetered stream, any other number for a metered one.
    pub metered: &'a [u8],
    /// The meter's weight.
    pub weight: &'a [u16],
    /// The meter's reading.
    pub reading: &'a [i32],
    /// 0 for a stream without a range, any other number for a metered one with a range.
    pub ranged: &'a [u8],
    /// The least flow in range.
    pub low: &'a [i32],
    /// The greatest flow in range.
    pub high: &'a [i32],
}

/// The plant writer. 0: the file is at the front of `file`, `written` its length. Another number: a refusal; `written`
/// is 0, `file` is as it was. A stream that one of the slices is too short to hold is taken as empty, from 0 to 0, and
/// refused as 8 when its turn comes.
pub fn write_plant(parts: Parts, file: &mut [u8], written: &mut usize) -> u8 {
    // SAFETY: as above.
    unsafe {
        wengeludo_write_plant(
            parts.units,
            parts.count,
            parts.from.as_ptr(),
            parts.from.len(),
            parts.to.as_ptr(),
            parts.to.len(),
            parts.metered.as_ptr(),
            parts.metered.len(),
            parts.weight.as_ptr(),
            parts.weight.len(),
            parts.reading.as_ptr(),
            parts.reading.len(),
            parts.ranged.as_ptr(),
            parts.ranged.len(),
            parts.low.as_ptr(),
            parts.low.len(),
            parts.high.as_ptr(),
            parts.high.len(),
            file.as_mut_ptr(),
            file.len(),
            written,
        )
    }
}

/// Where the plant reader puts a plant's parts, one slice for each, as [`Parts`] has them.
#[derive(Debug)]
pub struct PartsRoom<'a> {
    /// Where each stream comes from; 0 is the outside.
    pub from: &'a mut [u8],
    /// Where each stream goes.
    pub to: &'a mut [u8],
    /// 1 for a metered stream, 0 for an unmetered one.
    pub metered: &'a mut [u8],
    /// The meter's weight.
    pub weight: &'a mut [u16],
    /// The meter's reading.
    pub reading: &'a mut [i32],
    /// 1 for a stream with a range, 0 for one without.
    pub ranged: &'a mut [u8],
    /// The least flow in range.
    pub low: &'a mut [i32],
    /// The greatest flow in range.
    pub high: &'a mut [i32],
}

/// The plant reader. 0: the parts of each stream are at the front of the eight slices, `units` and `count` say how many units and
/// streams there are. Another number: a refusal; `units` and `count` are 0, the slices are as they were. Slices with room for fewer
/// than 96 elements are refused as 1.
pub fn read_plant(file: &[u8], units: &mut u8, count: &mut usize, room: PartsRoom) -> u8 {
    // SAFETY: as above.
    unsafe {
        wengeludo_read_plant(
            file.as_ptr(),
            file.len(),
            units,
            count,
            room.from.as_mut_ptr(),
            room.from.len(),
            room.to.as_mut_ptr(),
            room.to.len(),
            room.metered.as_mut_ptr(),
            room.metered.len(),
            room.weight.as_mut_ptr(),
            room.weight.len(),
            room.reading.as_mut_ptr(),
            room.reading.len(),
            room.ranged.as_mut_ptr(),
            room.ranged.len(),
            room.low.as_mut_ptr(),
            room.low.len(),
            room.high.as_mut_ptr(),
            room.high.len(),
        )
    }
}

/// The numbers that the sheet reader hands over beside its two slices; all 0 where it refuses.
#[derive(Clone, Copy, Debug, Default, PartialEq, Eq)]
pub struct Total {
    /// How many streams the sheet lists.
    pub count: usize,
    /// The kind of the total: 0x1E with an office, 0x1F without.
    pub kind: u8,
    /// The office that drew the sheet, 0 where the total has none.
    pub office: u8,
    /// The sheet's number.
    pub sheet: u32,
    /// The cost.
    pub cost: u64,
    /// The degrees.
    pub degrees: u8,
    /// The verdict: 0 pass, 1 fail, 2 none, 3 close.
    pub verdict: u8,
}

/// The sheet reader. 0: the kind of each stream's record (0x11 A, 0x12 R, 0x13 G, 0x14 W) and its flow (0 for W) are at the
/// front of `kinds` and `flows`, `total` says how many, and the sheet's total. Another number: a refusal; `total` is all 0,
/// `kinds` and `flows` are as they were. Slices with room for fewer than 96 elements are refused as 1.
pub fn read_sheet(bytes: &[u8], kinds: &mut [u8], flows: &mut [i64], total: &mut Total) -> u8 {
    // SAFETY: as above.
    unsafe {
        wengeludo_read_sheet(
            bytes.as_ptr(),
            bytes.len(),
            kinds.as_mut_ptr(),
            kinds.len(),
            flows.as_mut_ptr(),
            flows.len(),
            &mut total.count,
            &mut total.kind,
            &mut total.office,
            &mut total.sheet,
            &mut total.cost,
            &mut total.degrees,
            &mut total.verdict,
        )
    }
}

/// The translator. 0: the plant file that the transmitter file becomes is at the front of `plant`, `written` its length.
/// Another number: a refusal; `written` is 0, `plant` is as it was.
pub fn plant_from_transmitter(file: &[u8], plant: &mut [u8], written: &mut usize) -> u8 {
    // SAFETY: as above.
    unsafe { wengeludo_plant_from_transmitter(file.as_ptr(), file.len(), plant.as_mut_ptr(), plant.len(), written) }
}

/// The move to the ranged form. 0: the moved plant file is at the front of `out`, `written` its length. Another number: a
/// refusal; `written` is 0, `out` is as it was.
pub fn to_ranged(file: &[u8], out: &mut [u8], written: &mut usize) -> u8 {
    // SAFETY: as above.
    unsafe { wengeludo_to_ranged(file.as_ptr(), file.len(), out.as_mut_ptr(), out.len(), written) }
}

/// The move home. As [`to_ranged`]; 20 where a range is narrower than the widest.
pub fn from_ranged(file: &[u8], out: &mut [u8], written: &mut usize) -> u8 {
    // SAFETY: as above.
    unsafe { wengeludo_from_ranged(file.as_ptr(), file.len(), out.as_mut_ptr(), out.len(), written) }
}

/// Meters to buy. 0: the numbers of the streams to be metered are at the front of `streams`, `count` says how many, `price` what
/// they cost together. Another number: a refusal; `count` and `price` are 0, `streams` is as it was. A slice with room for fewer
/// than 96 numbers is refused as 1.
pub fn meters_to_buy(file: &[u8], prices: &[u32], streams: &mut [u8], count: &mut usize, price: &mut u32) -> u8 {
    // SAFETY: as above.
    unsafe {
        wengeludo_meters_to_buy(
            file.as_ptr(),
            file.len(),
            prices.as_ptr(),
            prices.len(),
            streams.as_mut_ptr(),
            streams.len(),
            count,
            price,
        )
    }
}

/// The survey of meter layouts. 0: at index k of `counts`, for each k from 0 to `count`, how many choices of k metered streams
/// leave none withheld, `count` being how many streams there are. Another number: a refusal; `count` is 0, `counts` is as it
/// was. A slice with room for fewer than 13 counts is refused as 1.
pub fn layouts_of(file: &[u8], counts: &mut [u16], count: &mut usize) -> u8 {
    // SAFETY: as above.
    unsafe { wengeludo_layouts_of(file.as_ptr(), file.len(), counts.as_mut_ptr(), counts.len(), count) }
}

/// Meters worth a visit. 0: the numbers of the streams listed are at the front of `streams`, the least cost without each of them at
/// the front of `costs`, `count` says how many. Another number: a refusal; `count` is 0, `streams` and `costs` are as they were.
/// Slices with room for fewer than 96 elements are refused as 1.
pub fn visits(file: &[u8], streams: &mut [u8], costs: &mut [u64], count: &mut usize) -> u8 {
    // SAFETY: as above.
    unsafe {
        wengeludo_visits(file.as_ptr(), file.len(), streams.as_mut_ptr(), streams.len(), costs.as_mut_ptr(), costs.len(), count)
    }
}

/// Steam charges. 0: the numbers of the streams to the outside are at the front of `streams`, what each is charged, in cents, at the
/// front of `charges`, `count` says how many, `bill` is the bill. Another number: a refusal; `count` and `bill` are 0, `streams` and
/// `charges` are as they were. Slices with room for fewer than 96 elements are refused as 1.
pub fn charges(file: &[u8], rates: &[u16], streams: &mut [u8], charges: &mut [i64], count: &mut usize, bill: &mut i64) -> u8 {
    // SAFETY: as above.
    unsafe {
        wengeludo_charges(
            file.as_ptr(),
            file.len(),
            rates.as_ptr(),
            rates.len(),
            streams.as_mut_ptr(),
            streams.len(),
            charges.as_mut_ptr(),
            charges.len(),
            count,
            bill,
        )
    }
}

/// The check of a sheet drawn up elsewhere, with one number for each place. 0: it passes. Another number: a refusal of the plant
/// reader, then of the sheet reader, then 26.
pub fn check_sheet(plant: &[u8], sheet: &[u8], numbers: &[i64]) -> u8 {
    // SAFETY: as above.
    unsafe { wengeludo_check_sheet(plant.as_ptr(), plant.len(), sheet.as_ptr(), sheet.len(), numbers.as_ptr(), numbers.len()) }
}

/// Numbers of the places. 0: the number of each place is at the front of `numbers`, `count` says how many they are. Another number:
/// a refusal; `count` is 0, `numbers` is as it was. A slice with room for fewer than 33 numbers is refused as 1.
pub fn place_numbers(file: &[u8], numbers: &mut [i64], count: &mut usize) -> u8 {
    // SAFETY: as above.
    unsafe { wengeludo_place_numbers(file.as_ptr(), file.len(), numbers.as_mut_ptr(), numbers.len(), count) }
}

/// The parts of a plant with wide weights and readings, one slice for each; stream k, counted from 1, stands at index k - 1 of each.
#[derive(Clone, Copy, Debug)]
pub struct WideParts<'a> {
    /// How many units.
    pub units: u8,
    /// How many streams.
    pub count: usize,
    /// Where each stream comes from; 0 is the outside.
    pub from: &'a [u8],
    /// Where each stream goes.
    pub to: &'a [u8],
    /// 0 for an unmetered stream, any other number for a metered one.
    pub metered: &'a [u8],
    /// The meter's weight.
    pub weight: &'a [u64],
    /// The meter's reading.
    pub reading: &'a [i64],
    /// 0 for a stream without a range, any other number for a metered one with a range.
    pub ranged: &'a [u8],
    /// The least flow in range.
    pub low: &'a [i64],
    /// The greatest flow in range.
    pub high: &'a [i64],
}

#[cfg(feature = "rules")]
extern "C" {
    fn wengeludo_rust_broken_rule(
        plant: *const u8,
        plant_length: usize,
        sheet: *const u8,
        sheet_length: usize,
        numbers: *const i64,
        count: usize,
        words: *mut u8,
    ) -> i32;
}

/// The first rule that a sheet breaks, in words; only of what [`check_sheet`] refuses with 26. Host code, not proved.
#[cfg(feature = "rules")]
pub(crate) fn broken_rule(plant: &[u8], sheet: &[u8], numbers: &[i64]) -> Option<String> {
    let mut words = [0; 160];
    // SAFETY: the C function reads the slices only if the check has read them, and writes at most 160 bytes, the last of them 0.
    let found = unsafe {
        wengeludo_rust_broken_rule(
            plant.as_ptr(),
            plant.len(),
            sheet.as_ptr(),
            sheet.len(),
            numbers.as_ptr(),
            numbers.len(),
            words.as_mut_ptr(),
        )
    };
    let end = words.iter().position(|byte| *byte == 0).unwrap_or(words.len());
    (found != 0).then(|| String::from_utf8_lossy(&words[..end]).into_owned())
}

/// The check of a flow found elsewhere, with a flow for each stream and a number for each place. 0: it passes. Another number: a
/// refusal, 1, 6, 5, stream after stream 7 to 10 and 18, then 26. Slices shorter than the streams, or than the places, are refused as 1.
pub fn check_flow(parts: WideParts, flow: &[i64], numbers: &[i64]) -> u8 {
    // SAFETY: as above.
    unsafe {
        wengeludo_check_flow(
            parts.units,
            parts.count,
            parts.from.as_ptr(),
            parts.from.len(),
            parts.to.as_ptr(),
            parts.to.len(),
            parts.metered.as_ptr(),
            parts.metered.len(),
            parts.weight.as_ptr(),
            parts.weight.len(),
            parts.reading.as_ptr(),
            parts.reading.len(),
            parts.ranged.as_ptr(),
            parts.ranged.len(),
            parts.low.as_ptr(),
            parts.low.len(),
            parts.high.as_ptr(),
            parts.high.len(),
            flow.as_ptr(),
            flow.len(),
            numbers.as_ptr(),
            numbers.len(),
        )
    }
}
