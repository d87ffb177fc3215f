// SPDX-License-Identifier: LicenseRef-Wengeludo
//! Kept sheets, read by the definition.

use super::file::Fault;

/// What a kept sheet shows: the kind and the flow (0 for W) of each stream, and the total.
#[derive(Clone, Debug, Default, PartialEq, Eq)]
pub struct Kept {
    pub streams: Vec<(u8, i64)>,
    /// 0x1E, or 0x1F where the total has no office.
    pub kind: u8,
    pub office: u8,
    pub number: u32,
    pub cost: u64,
    pub degrees: u8,
    pub verdict: u8,
}

/// The next N bytes.
fn take<const N: usize>(bytes: &mut &[u8]) -> Result<[u8; N], Fault> {
    let (head, tail) = (bytes.get(..N).ok_or(13)?, &bytes[N.min(bytes.len())..]);
    *bytes = tail;
    Ok(head.try_into().unwrap())
}

/// The sheet reader: 13 to 15, or what the sheet shows.
pub fn reopen(mut bytes: &[u8]) -> Result<Kept, Fault> {
    let mut kept = Kept::default();
    loop {
        match take(&mut bytes)? {
            [kind @ (0x1E | 0x1F)] => {
                kept.kind = kind;
                break;
            }
            [0x11..=0x14] if kept.streams.len() == 96 => return Err(13),
            [0x14] => kept.streams.push((0x14, 0)),
            [kind @ 0x11..=0x13] => kept.streams.push((kind, i64::from_be_bytes(take(&mut bytes)?))),
            _ => return Err(13),
        }
    }
    if kept.kind == 0x1E {
        [kept.office] = take(&mut bytes)?;
    }
    kept.number = u32::from_be_bytes(take(&mut bytes)?);
    kept.cost = u64::from_be_bytes(take(&mut bytes)?);
    [kept.degrees, kept.verdict] = take(&mut bytes)?;
    let verdicts: &[u8] = if kept.degrees == 0 { &[2] } else { &[0, 1, 3] };
    if kept.office > 7 || kept.number == 0 || kept.degrees > 32 || !verdicts.contains(&kept.verdict) {
        return Err(14);
    }
    if bytes.is_empty() {
        Ok(kept)
    } else {
        Err(15)
    }
}

/// The bytes of a sheet from what it shows.
pub fn sheet_bytes(kept: &Kept) -> Vec<u8> {
    let mut sheet = Vec::new();
    for (kind, flow) in &kept.streams {
        sheet.push(*kind);
        if *kind != 0x14 {
            sheet.extend(flow.to_be_bytes());
        }
    }
    sheet.push(kept.kind);
    if kept.kind == 0x1E {
        sheet.push(kept.office);
    }
    sheet.extend(kept.number.to_be_bytes());
    sheet.extend(kept.cost.to_be_bytes());
    sheet.extend([kept.degrees, kept.verdict]);
    sheet
}
