//! The interval file and its correction: reading with every check, and writing an interval back.

use crate::terms::{TERMS, Terms};

/// The number of a refusal, 1 to 11 or 14, and the row it was found at, or 0.
pub type Refusal = (u8, u16);

/// The head of a PH file; a PG file has its terms between these bytes and the rows.
pub const INTERVAL_HEAD_PH: usize = 15;
pub const INTERVAL_HEAD_PG: usize = INTERVAL_HEAD_PH + TERMS;
pub const CORRECTION_HEAD: usize = 9;
pub const ROW: usize = 21;
pub const MAX_ROWS: usize = 256;

const LAST_DAY: u32 = 36_524;
const LAST_QUARTER: u8 = 95;

#[derive(Clone, Debug, PartialEq, Eq)]
pub struct Interval {
    pub day: u32,
    pub quarter: u8,
    pub tariff: u16,
    pub need: u32,
    /// The terms that a PG file states; none in a PH file.
    pub stated: Option<Terms>,
    pub rows: Vec<Row>,
}

/// What an interval says besides its rows.
#[derive(Clone, Copy)]
pub(crate) struct Head {
    pub day: u32,
    pub quarter: u8,
    pub tariff: u16,
    pub need: u32,
    pub rows: usize,
    /// The terms that a PG file states; none in a PH file.
    pub stated: Option<Terms>,
}

#[derive(Clone, Copy, Debug, PartialEq, Eq)]
pub struct Row {
    pub id: u16,
    pub kind: u8,
    pub capacity: u16,
    pub metered: u32,
    pub status: u8,
    pub offered: u8,
    pub minimum: u32,
    pub bids: [u16; 2],
}

/// The energy of a quarter hour at some percentage of full load, in kWh for each MW; full load is 250.
pub(crate) const AT_40: u32 = 100;
pub(crate) const AT_60: u32 = 150;
pub(crate) const AT_70: u32 = 175;
const AT_110: u32 = 275;

impl Row {
    pub fn is_thermal(&self) -> bool {
        self.kind == 1
    }

    /// The energy of a quarter hour at a load given in kWh for each MW.
    pub(crate) fn at_load(&self, kwh_for_each_mw: u32) -> u32 {
        u32::from(self.capacity) * kwh_for_each_mw
    }

    /// Nearly every row is in range, but rows differ in what they are: so each part is worked out, without a jump between.
    fn in_range(&self, terms: Terms) -> bool {
        let [lowest_1, highest_1, lowest_2, highest_2] = terms.limits;
        let no_offer = (self.offered == 0) & (self.minimum == 0) & (self.bids == [0, 0]);
        let offer = (self.offered == 1)
            & self.is_thermal()
            & (self.minimum <= terms.baseline(self.capacity))
            & (lowest_1..=highest_1).contains(&self.bids[0])
            & (lowest_2..=highest_2).contains(&self.bids[1]);
        let status_fits = (self.status <= 3) & (self.is_thermal() | matches!(self.status, 0 | 3));
        (self.id >= 1)
            & (1..=3).contains(&self.kind)
            & (1..=2_000).contains(&self.capacity)
            & (self.metered <= self.at_load(AT_110))
            & status_fits
            & (no_offer | offer)
    }

    fn read(bytes: &[u8; ROW]) -> Row {
        Row {
            id: u16_at(bytes, 2),
            kind: bytes[4],
            capacity: u16_at(bytes, 5),
            metered: u32_at(bytes, 7),
            status: bytes[11],
            offered: bytes[12],
            minimum: u32_at(bytes, 13),
            bids: [u16_at(bytes, 17), u16_at(bytes, 19)],
        }
    }

    fn write(&self, out: &mut [u8; ROW]) {
        out[..2].copy_from_slice(b"PR");
        out[2..4].copy_from_slice(&self.id.to_le_bytes());
        out[4] = self.kind;
        out[5..7].copy_from_slice(&self.capacity.to_le_bytes());
        out[7..11].copy_from_slice(&self.metered.to_le_bytes());
        out[11] = self.status;
        out[12] = self.offered;
        out[13..17].copy_from_slice(&self.minimum.to_le_bytes());
        out[17..19].copy_from_slice(&self.bids[0].to_le_bytes());
        out[19..21].copy_from_slice(&self.bids[1].to_le_bytes());
    }

    /// The checks 6 and 7.
    fn check(&self, terms: Terms, last_id: u16, place: u16) -> Result<(), Refusal> {
        if !self.in_range(terms) {
            Err((6, place))
        } else if self.id <= last_id {
            Err((7, place))
        } else {
            Ok(())
        }
    }
}

impl Head {
    fn read(bytes: &[u8; INTERVAL_HEAD_PH], stated: Option<Terms>) -> Head {
        Head {
            day: u32_at(bytes, 2),
            quarter: bytes[6],
            tariff: u16_at(bytes, 7),
            need: u32_at(bytes, 9),
            rows: u16_at(bytes, 13).into(),
            stated,
        }
    }

    fn of(interval: &Interval) -> Head {
        let &Interval { day, quarter, tariff, need, stated, ref rows } = interval;
        Head { day, quarter, tariff, need, rows: rows.len(), stated }
    }

    /// The terms that the rows are held to and settled by.
    pub fn terms(&self) -> Terms {
        self.stated.unwrap_or(Terms::OF_01)
    }

    /// How many bytes stand before the rows.
    pub fn length(&self) -> usize {
        if self.stated.is_some() { INTERVAL_HEAD_PG } else { INTERVAL_HEAD_PH }
    }

    /// The checks 3 and 14.
    fn check(&self) -> Result<(), Refusal> {
        let fields_fit = self.day <= LAST_DAY
            && self.quarter <= LAST_QUARTER
            && (1..=10_000).contains(&self.tariff)
            && self.need <= 64_000_000
            && self.rows <= MAX_ROWS;
        if !fields_fit {
            Err((3, 0))
        } else if !self.terms().in_range() {
            Err((14, 0))
        } else {
            Ok(())
        }
    }

    fn write(&self, out: &mut [u8]) {
        out[..2].copy_from_slice(if self.stated.is_some() { b"PG" } else { b"PH" });
        out[2..6].copy_from_slice(&self.day.to_le_bytes());
        out[6] = self.quarter;
        out[7..9].copy_from_slice(&self.tariff.to_le_bytes());
        out[9..13].copy_from_slice(&self.need.to_le_bytes());
        out[13..15].copy_from_slice(&(self.rows as u16).to_le_bytes());
        if let Some(terms) = self.stated {
            out[15..].copy_from_slice(&terms.bytes());
        }
    }
}

pub(crate) fn u16_at(bytes: &[u8], at: usize) -> u16 {
    u16::from_le_bytes([bytes[at], bytes[at + 1]])
}

fn u32_at(bytes: &[u8], at: usize) -> u32 {
    u32::from_le_bytes([bytes[at], bytes[at + 1], bytes[at + 2], bytes[at + 3]])
}

/// The checks from 1 to 4: the head, and the records of the rows, of which nothing but the number is known.
fn read_head(file: &[u8]) -> Result<(Head, &[[u8; ROW]]), Refusal> {
    let (bytes, rest) = file.split_first_chunk::<INTERVAL_HEAD_PH>().ok_or((1, 0))?;
    let (stated, body) = match &bytes[..2] {
        b"PH" => (None, rest),
        b"PG" => {
            let (terms, body) = rest.split_first_chunk().ok_or((1, 0))?;
            (Some(Terms::read(terms)), body)
        }
        _ => return Err((2, 0)),
    };
    let head = Head::read(bytes, stated);
    head.check()?;
    if body.len() != ROW * head.rows {
        return Err((4, 0));
    }
    Ok((head, body.as_chunks().0))
}

/// Hands over row by row, each after its checks 5, 6 and 7 under the interval's terms.
fn each_row(records: &[[u8; ROW]], terms: Terms, mut take: impl FnMut(Row)) -> Result<(), Refusal> {
    let mut last_id = 0;
    for (place, record) in (1..).zip(records) {
        if !record.starts_with(b"PR") {
            return Err((5, place));
        }
        let row = Row::read(record);
        row.check(terms, last_id, place)?;
        last_id = row.id;
        take(row);
    }
    Ok(())
}

/// Reads an interval file by the checks 1 to 7, and 14.
pub fn read_interval(file: &[u8]) -> Result<Interval, Refusal> {
    let mut rows = Vec::new();
    let Head { day, quarter, tariff, need, stated, .. } = read_into(file, &mut rows)?;
    Ok(Interval { day, quarter, tariff, need, stated, rows })
}

/// The same into a list that is used again.
fn read_into(file: &[u8], rows: &mut Vec<Row>) -> Result<Head, Refusal> {
    let (head, records) = read_head(file)?;
    rows.clear();
    each_row(records, head.terms(), |row| rows.push(row))?;
    Ok(head)
}

/// Reads both files by the checks 1 to 10, and 14, and puts the correction's rows in place of the interval's.
/// `corrected` is room for the rows of the correction.
pub(crate) fn read_pair(
    interval: &[u8],
    correction: &[u8],
    rows: &mut Vec<Row>,
    corrected: &mut Vec<Row>,
) -> Result<Head, Refusal> {
    let head = read_into(interval, rows)?;
    if !correction.is_empty() {
        correct(&head, rows, correction, corrected)?;
    }
    Ok(head)
}

/// The checks 8, 9 and 10, each finished before the next begins.
fn correct(interval: &Head, rows: &mut [Row], correction: &[u8], corrected: &mut Vec<Row>) -> Result<(), Refusal> {
    let (head, body) = correction.split_at_checked(CORRECTION_HEAD).ok_or((8, 0))?;
    let (day, quarter, count) = (u32_at(head, 2), head[6], usize::from(u16_at(head, 7)));
    let head_fits = head.starts_with(b"PK")
        && day <= LAST_DAY
        && quarter <= LAST_QUARTER
        && (1..=MAX_ROWS).contains(&count)
        && body.len() == ROW * count;
    if !head_fits {
        return Err((8, 0));
    }
    corrected.clear();
    each_row(body.as_chunks().0, interval.terms(), |row| corrected.push(row)).map_err(|(_, place)| (8, place))?;
    if (day, quarter) != (interval.day, interval.quarter) {
        return Err((9, 0));
    }
    // Both files rise by id, so one pass over the interval meets every corrected row.
    let mut rows = rows.iter_mut();
    for (place, &new) in (1..).zip(corrected.iter()) {
        match rows.find(|row| row.id >= new.id) {
            Some(row) if new == (Row { metered: new.metered, status: new.status, ..*row }) => *row = new,
            _ => return Err((10, place)),
        }
    }
    Ok(())
}

/// Writes an interval file; its contents are checked by 3, 14, 6 and 7, its buffer by 11.
pub fn write_interval(interval: &Interval, out: &mut [u8]) -> Result<usize, Refusal> {
    let head = Head::of(interval);
    head.check()?;
    let mut last_id = 0;
    for (place, row) in (1..).zip(&interval.rows) {
        row.check(head.terms(), last_id, place)?;
        last_id = row.id;
    }
    write_checked(&head, interval.rows.iter().copied(), out)
}

/// Reads an interval file and writes its contents out again. All of it is checked before anything is written.
pub fn rewrite(interval: &[u8], out: &mut [u8]) -> Result<usize, Refusal> {
    let (head, records) = read_head(interval)?;
    each_row(records, head.terms(), |_| ())?;
    write_checked(&head, records.iter().map(Row::read), out)
}

/// Writes contents that have passed their checks; the buffer is checked by 11.
fn write_checked(head: &Head, rows: impl Iterator<Item = Row>, out: &mut [u8]) -> Result<usize, Refusal> {
    let length = head.length() + ROW * head.rows;
    let (bytes, body) = out.get_mut(..length).ok_or((11, 0))?.split_at_mut(head.length());
    head.write(bytes);
    for (row, record) in rows.zip(body.as_chunks_mut().0) {
        row.write(record);
    }
    Ok(length)
}

/// The record of one row in the body of an accepted file, where ids rise.
pub(crate) fn row_bytes(body: &[u8], id: u16) -> Option<&[u8]> {
    let (records, _) = body.as_chunks::<ROW>();
    let place = records.binary_search_by_key(&id, |record| u16_at(record, 2)).ok()?;
    Some(&records[place])
}
