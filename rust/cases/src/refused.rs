//! Files that must be refused, with the number and place that are due, and files damaged at random.

use crate::Case;
use crate::accepted::{self, Shape};
use crate::file::{Correction, INTERVAL_HEAD_PG, INTERVAL_HEAD_PH, Interval, Row, THERMAL, Terms, WIND};
use crate::random::Random;

/// An accepted trial that faults are put into.
#[derive(Clone, Debug)]
pub struct Base {
    pub interval: Interval,
    pub correction: Option<Correction>,
}

/// One fault. Rows are counted from 0; which file it touches is clear from its refusal.
#[derive(Clone, Copy, Debug, PartialEq, Eq)]
pub enum Fault {
    /// 1: cut to so many bytes.
    Short(usize),
    /// 2
    HeadMark([u8; 2]),
    /// 1 again: a PG file that has its mark and is cut to so many bytes.
    ShortPG(usize),
    /// 3
    Head(HeadField),
    /// 14
    Terms(TermsFault),
    /// 14: a PH file with the mark of PG, so that its first row is read for terms.
    TakenForPG,
    /// 4: a PG file with the mark of PH, so that its terms are read for the beginning of a row.
    TakenForPH,
    /// 4 or, in the correction, 8: bytes added at the end, or taken away.
    Longer(File, usize),
    Shorter(File, usize),
    /// 4 or 8: the head counts another number of rows.
    Count(File, u16),
    /// 5 or 8
    RowMark(File, usize, [u8; 2]),
    /// 6 or 8
    Range(File, usize, RowField),
    /// 7 or 8: an id that is so far below the one before it.
    Order(File, usize, u16),
    /// 8
    CorrectionShort(usize),
    CorrectionMark([u8; 2]),
    CorrectionDay(u32),
    CorrectionQuarter(u8),
    /// 9
    OtherDay,
    OtherQuarter,
    /// 10
    Unknown(usize),
    Differs(usize, Fixed),
    /// 11: a buffer too short by so much.
    Buffer(usize),
}

#[derive(Clone, Copy, Debug, PartialEq, Eq)]
pub enum File {
    Interval,
    Correction,
}

#[derive(Clone, Copy, Debug, PartialEq, Eq)]
pub enum HeadField {
    Day(u32),
    Quarter(u8),
    Tariff(u16),
    Need(u32),
    Count(u16),
}

/// What is wrong with the terms that a PG file states.
#[derive(Clone, Copy, Debug, PartialEq, Eq)]
pub enum TermsFault {
    Percent(u8),
    /// Limits that do not rise, begin with 0 or end above 1,000.
    Limits([u16; 4]),
}

/// A field of a row with a value outside its range.
#[derive(Clone, Copy, Debug, PartialEq, Eq)]
pub enum RowField {
    NoId,
    Kind(u8),
    Capacity(u16),
    /// So much above the most the row's capacity allows.
    Metered(u32),
    Status(u8),
    Offered(u8),
    WindOffers,
    /// Not offered, yet with a figure of an offer.
    StrayMinimum(u32),
    StrayBid(usize, u16),
    /// Offered, with so much above the baseline.
    Minimum(u32),
    Bid(usize, u16),
}

/// A field that a correction must not change, changed within its range.
#[derive(Clone, Copy, Debug, PartialEq, Eq)]
pub enum Fixed {
    Kind,
    Capacity,
    Offered,
    Minimum,
    Bid(usize),
}

impl Fault {
    /// The refusal due where this is the only fault, or the first.
    pub fn refusal(&self) -> (u8, u16) {
        let row = |place: usize| place as u16 + 1;
        match *self {
            Fault::Short(_) | Fault::ShortPG(_) => (1, 0),
            Fault::HeadMark(_) => (2, 0),
            Fault::Head(_) => (3, 0),
            Fault::Terms(_) | Fault::TakenForPG => (14, 0),
            Fault::TakenForPH => (4, 0),
            Fault::Longer(File::Interval, _) | Fault::Shorter(File::Interval, _) | Fault::Count(File::Interval, _) => {
                (4, 0)
            }
            Fault::RowMark(File::Interval, place, _) => (5, row(place)),
            Fault::Range(File::Interval, place, _) => (6, row(place)),
            Fault::Order(File::Interval, place, _) => (7, row(place)),
            Fault::Longer(..) | Fault::Shorter(..) | Fault::Count(..) => (8, 0),
            Fault::CorrectionShort(_) | Fault::CorrectionMark(_) => (8, 0),
            Fault::CorrectionDay(_) | Fault::CorrectionQuarter(_) => (8, 0),
            Fault::RowMark(_, place, _) | Fault::Range(_, place, _) | Fault::Order(_, place, _) => (8, row(place)),
            Fault::OtherDay | Fault::OtherQuarter => (9, 0),
            Fault::Unknown(place) | Fault::Differs(place, _) => (10, row(place)),
            Fault::Buffer(_) => (11, 0),
        }
    }

    /// Whether two faults could undo each other, or make one of another number together.
    fn hides(&self, other: &Fault) -> bool {
        let buffers = matches!((self, other), (Fault::Buffer(_), Fault::Buffer(_)));
        let fixed = self.refusal().0 == 10 && other.refusal().0 == 10;
        // Without the mark of PG nobody looks for its head and its terms.
        let of_pg = |fault: &Fault| matches!(fault, Fault::ShortPG(_) | Fault::Terms(_));
        let taken = *self == Fault::TakenForPH && of_pg(other) || *other == Fault::TakenForPH && of_pg(self);
        buffers || fixed || taken || self.length_of().is_some() && self.length_of() == other.length_of()
    }

    /// The file whose length, or count of rows, the fault puts wrong.
    fn length_of(&self) -> Option<File> {
        match *self {
            Fault::Longer(file, _) | Fault::Shorter(file, _) | Fault::Count(file, _) => Some(file),
            Fault::TakenForPH => Some(File::Interval),
            Fault::CorrectionShort(_) => Some(File::Correction),
            _ => None,
        }
    }

    /// Where the fault stands in the order of checking.
    fn turn(&self) -> (u8, u16, u8) {
        match self.refusal() {
            // A head of PG is missed once its mark is known, and its terms are looked at after the other fields of the head.
            (1, _) if matches!(self, Fault::ShortPG(_)) => (2, 0, 1),
            (14, _) => (3, 0, 1),
            (number @ 5..=7, place) => (5, place, number),
            (number, place) => (number, place, 0),
        }
    }
}

/// A small accepted trial of either form, of 3 rows at least, with every kind of row.
pub fn base(random: &mut Random, most: u32) -> Base {
    let stated = accepted::form(random);
    base_stating(random, most, stated)
}

/// The same with these terms, or with none.
pub fn base_stating(random: &mut Random, most: u32, stated: Option<Terms>) -> Base {
    let count = random.within(3..=most);
    let mut interval = accepted::interval_stating(random, Shape::Mixed, count, stated);
    let [_, highest_1, lowest_2, _] = interval.terms().limits;
    let last = interval.rows.len() - 1;
    interval.rows[0] = Row { kind: WIND, status: 0, offered: 0, minimum: 0, bids: [0, 0], ..interval.rows[0] };
    let plain = &mut interval.rows[1];
    *plain = Row { kind: THERMAL, offered: 0, minimum: 0, bids: [0, 0], ..*plain };
    interval.rows[last] = Row { kind: THERMAL, ..interval.rows[last] }.offering(0, highest_1, lowest_2);
    let (interval, correction) = loop {
        let (spoilt, correction) = accepted::spoil(random, interval.clone());
        if correction.rows.len() > 1 {
            break (spoilt, correction);
        }
    };
    Base { interval, correction: Some(correction) }
}

/// Every single fault that can be put into a base, at every place.
pub fn faults(base: &Base) -> Vec<Fault> {
    let terms = base.interval.terms();
    let mut faults: Vec<Fault> = (0..INTERVAL_HEAD_PH).map(Fault::Short).collect();
    faults
        .extend([*b"QH", *b"QG", *b"PK", *b"PS", *b"PT", *b"PW", *b"GP", *b"ph", *b"pg", [0, 0]].map(Fault::HeadMark));
    if base.interval.stated.is_some() {
        faults.extend((INTERVAL_HEAD_PH..INTERVAL_HEAD_PG).map(Fault::ShortPG));
        faults.extend(terms_faults(terms).map(Fault::Terms));
        faults.push(Fault::TakenForPH);
    } else {
        faults.push(Fault::TakenForPG);
    }
    faults.extend([36_525, u32::MAX].map(|day| Fault::Head(HeadField::Day(day))));
    faults.extend([96, 255].map(|quarter| Fault::Head(HeadField::Quarter(quarter))));
    faults.extend([0, 10_001, 65_535].map(|tariff| Fault::Head(HeadField::Tariff(tariff))));
    faults.extend([64_000_001, u32::MAX].map(|need| Fault::Head(HeadField::Need(need))));
    faults.extend([257, 65_535].map(|count| Fault::Head(HeadField::Count(count))));
    lengths_and_rows(File::Interval, &base.interval.rows, terms, &mut faults);
    if let Some(correction) = &base.correction {
        faults.extend((1..9).map(Fault::CorrectionShort));
        faults.extend([*b"PH", *b"PG", *b"QK", *b"pk"].map(Fault::CorrectionMark));
        faults.extend([36_525, u32::MAX].map(Fault::CorrectionDay));
        faults.extend([96, 255].map(Fault::CorrectionQuarter));
        faults.extend([0, 257, 65_535].map(|count| Fault::Count(File::Correction, count)));
        lengths_and_rows(File::Correction, &correction.rows, terms, &mut faults);
        faults.extend([Fault::OtherDay, Fault::OtherQuarter]);
        for (place, row) in correction.rows.iter().enumerate() {
            if free_id(base, place).is_some() {
                faults.push(Fault::Unknown(place));
            }
            faults.extend(fixed(row).into_iter().map(|fixed| Fault::Differs(place, fixed)));
        }
    }
    faults.extend((1..=base.interval.statement_length()).map(Fault::Buffer));
    faults
}

/// Each way in which terms that are allowed can be put wrong in one place.
fn terms_faults(terms: Terms) -> impl Iterator<Item = TermsFault> {
    let [first, second, third, fourth] = terms.limits;
    let percents = [0, 40, 51, 255].map(TermsFault::Percent);
    let limits = [
        [0, second, third, fourth],
        [second, second, third, fourth],
        [second + 1, second, third, fourth],
        [first, first, third, fourth],
        [first, third + 1, third, fourth],
        [first, second, second - 1, fourth],
        [first, second, fourth, fourth],
        [first, second, fourth + 1, fourth],
        [first, second, third, third],
        [first, second, third, 0],
        [first, second, third, 1_001],
        [first, second, third, u16::MAX],
    ];
    percents.into_iter().chain(limits.map(TermsFault::Limits))
}

fn lengths_and_rows(file: File, rows: &[Row], terms: Terms, faults: &mut Vec<Fault>) {
    let count = rows.len() as u16;
    faults.extend([1, 9, 20, 21, 42].map(|bytes| Fault::Longer(file, bytes)));
    faults.extend([1, 9, 20, 21].map(|bytes| Fault::Shorter(file, bytes)));
    faults.extend([count - 1, count + 1, 256].map(|other| Fault::Count(file, other)));
    for (place, row) in rows.iter().enumerate() {
        faults.extend([*b"QR", *b"PL", [0, 0]].map(|mark| Fault::RowMark(file, place, mark)));
        faults.extend(ranges(row, terms).into_iter().map(|field| Fault::Range(file, place, field)));
        if place > 0 {
            faults.extend([0, 1].map(|below| Fault::Order(file, place, below)));
        }
    }
    // An id below the one before it is id 0 where that one is 1: then it is out of range.
    faults.retain(|fault| !matches!(*fault, Fault::Order(f, place, 1) if f == file && rows[place - 1].id == 1));
}

fn ranges(row: &Row, terms: Terms) -> Vec<RowField> {
    use RowField::*;
    let mut fields = vec![
        NoId,
        Kind(0),
        Kind(4),
        Kind(255),
        Capacity(0),
        Capacity(2_001),
        Capacity(65_535),
        Metered(1),
        Metered(1_000_000_000),
        Status(4),
        Status(255),
        Offered(2),
        Offered(255),
    ];
    if row.kind != THERMAL {
        fields.extend([Status(1), Status(2), WindOffers]);
    }
    if row.offered == 1 {
        fields.extend([Minimum(1), Minimum(1_000_000_000)]);
        // Half load, where the baseline is below it.
        let (half_load, baseline) = (125 * u32::from(row.capacity), terms.baseline(row.capacity));
        fields.extend((baseline < half_load).then(|| Minimum(half_load - baseline)));
        let [first, second, third, fourth] = terms.limits;
        let bids = [(0, first - 1), (0, second + 1), (1, third - 1), (1, fourth + 1), (0, 0), (1, 0)];
        fields.extend(bids.map(|(tier, bid)| Bid(tier, bid)));
    } else {
        fields.extend([StrayMinimum(1), StrayBid(0, terms.limits[0]), StrayBid(1, terms.limits[2])]);
    }
    fields
}

fn fixed(row: &Row) -> Vec<Fixed> {
    let mut fixed = vec![Fixed::Kind, Fixed::Capacity];
    if row.kind == THERMAL {
        fixed.push(Fixed::Offered);
    }
    if row.offered == 1 {
        fixed.extend([Fixed::Minimum, Fixed::Bid(0), Fixed::Bid(1)]);
    }
    fixed
}

/// An id that keeps the correction's order at a place and that the interval lacks.
fn free_id(base: &Base, place: usize) -> Option<u16> {
    let rows = &base.correction.as_ref()?.rows;
    let after = if place == 0 { 1 } else { rows[place - 1].id + 1 };
    let end = rows.get(place + 1).map_or(u16::MAX, |row| row.id - 1);
    (after..=end).find(|id| base.interval.rows.iter().all(|row| row.id != *id))
}

/// The base with faults in it. The refusal that is due is that of the fault checked first.
pub fn damaged(base: &Base, faults: &[Fault]) -> (Case, (u8, u16)) {
    // The fault checked first is put in last, so that no other hides it.
    let mut faults = faults.to_vec();
    faults.sort_by_key(|fault| std::cmp::Reverse(fault.turn()));
    let mut spoilt = base.clone();
    for fault in &faults {
        put_into_figures(base, &mut spoilt, fault);
    }
    let mut case = Case {
        name: format!("{faults:?}"),
        interval: spoilt.interval.bytes(),
        correction: spoilt.correction.map_or(Vec::new(), |correction| correction.bytes()),
        buffer: base.interval.statement_length(),
    };
    for fault in &faults {
        put_into_bytes(&mut case, fault);
    }
    (case, faults[faults.len() - 1].refusal())
}

fn put_into_figures(base: &Base, spoilt: &mut Base, fault: &Fault) {
    let terms = base.interval.terms();
    let interval = &mut spoilt.interval;
    match (*fault, spoilt.correction.as_mut()) {
        (Fault::HeadMark(mark), _) => interval.mark = mark,
        (Fault::TakenForPG, _) => interval.mark = *b"PG",
        (Fault::TakenForPH, _) => interval.mark = *b"PH",
        (Fault::Head(field), _) => match field {
            HeadField::Day(day) => interval.day = day,
            HeadField::Quarter(quarter) => interval.quarter = quarter,
            HeadField::Tariff(tariff) => interval.tariff = tariff,
            HeadField::Need(need) => interval.need = need,
            HeadField::Count(count) => interval.count = Some(count),
        },
        (Fault::Terms(TermsFault::Percent(percent)), _) => interval.stated = Some(Terms { percent, ..terms }),
        (Fault::Terms(TermsFault::Limits(limits)), _) => interval.stated = Some(Terms { limits, ..terms }),
        (Fault::Count(File::Interval, count), _) => interval.count = Some(count),
        (Fault::RowMark(File::Interval, place, mark), _) => interval.rows[place].mark = mark,
        (Fault::Range(File::Interval, place, field), _) => put_into_row(&mut interval.rows[place], field, terms),
        (Fault::Order(File::Interval, place, below), _) => {
            interval.rows[place].id = base.interval.rows[place - 1].id - below;
        }
        (Fault::Count(File::Correction, count), Some(correction)) => correction.count = Some(count),
        (Fault::RowMark(File::Correction, place, mark), Some(correction)) => correction.rows[place].mark = mark,
        (Fault::Range(File::Correction, place, field), Some(correction)) => {
            put_into_row(&mut correction.rows[place], field, terms);
        }
        (Fault::Order(File::Correction, place, below), Some(correction)) => {
            correction.rows[place].id = correction.rows[place - 1].id - below;
        }
        (Fault::CorrectionMark(mark), Some(correction)) => correction.mark = mark,
        (Fault::CorrectionDay(day), Some(correction)) => correction.day = day,
        (Fault::CorrectionQuarter(quarter), Some(correction)) => correction.quarter = quarter,
        (Fault::OtherDay, Some(correction)) => correction.day = (correction.day + 1) % 36_525,
        (Fault::OtherQuarter, Some(correction)) => correction.quarter = (correction.quarter + 1) % 96,
        (Fault::Unknown(place), Some(correction)) => {
            correction.rows[place].id = free_id(base, place).expect("listed only where an id is free");
        }
        (Fault::Differs(place, fixed), Some(correction)) => change(&mut correction.rows[place], fixed, terms),
        _ => {}
    }
}

fn put_into_row(row: &mut Row, field: RowField, terms: Terms) {
    match field {
        RowField::NoId => row.id = 0,
        RowField::Kind(kind) => row.kind = kind,
        RowField::Capacity(capacity) => row.capacity = capacity,
        RowField::Metered(above) => row.metered = 275 * u32::from(row.capacity) + above,
        RowField::Status(status) => row.status = status,
        RowField::Offered(offered) => row.offered = offered,
        RowField::WindOffers => *row = row.offering(0, terms.limits[0], terms.limits[2]),
        RowField::StrayMinimum(minimum) => (row.offered, row.minimum) = (0, minimum),
        RowField::StrayBid(tier, bid) => (row.offered, row.bids[tier]) = (0, bid),
        RowField::Bid(tier, bid) => (row.offered, row.bids[tier]) = (1, bid),
        RowField::Minimum(above) => row.minimum = terms.baseline(row.capacity) + above,
    }
}

/// Changes one fixed field of a row and keeps every field in its range.
fn change(row: &mut Row, fixed: Fixed, terms: Terms) {
    let [first, second, third, fourth] = terms.limits;
    match fixed {
        Fixed::Kind if row.kind == THERMAL => {
            *row = Row { kind: WIND, status: 0, offered: 0, minimum: 0, bids: [0, 0], ..*row };
        }
        Fixed::Kind => row.kind = 5 - row.kind,
        Fixed::Capacity => {
            row.capacity = if row.capacity == 2_000 { 1_999 } else { row.capacity + 1 };
            row.metered = row.metered.min(275 * u32::from(row.capacity));
            row.minimum = row.minimum.min(terms.baseline(row.capacity));
        }
        Fixed::Offered if row.offered == 1 => *row = Row { offered: 0, minimum: 0, bids: [0, 0], ..*row },
        Fixed::Offered => *row = row.offering(0, first, third),
        Fixed::Minimum => row.minimum = if row.minimum == 0 { 1 } else { row.minimum - 1 },
        Fixed::Bid(0) => row.bids[0] = if row.bids[0] == second { second - 1 } else { row.bids[0] + 1 },
        Fixed::Bid(_) => row.bids[1] = if row.bids[1] == fourth { fourth - 1 } else { row.bids[1] + 1 },
    }
}

fn put_into_bytes(case: &mut Case, fault: &Fault) {
    let file = |case: &mut Case, file| match file {
        File::Interval => std::mem::take(&mut case.interval),
        File::Correction => std::mem::take(&mut case.correction),
    };
    match *fault {
        Fault::Short(length) | Fault::ShortPG(length) => case.interval.truncate(length),
        Fault::CorrectionShort(length) => case.correction.truncate(length),
        Fault::Longer(which, bytes) => {
            let mut longer = file(case, which);
            longer.extend((0..bytes).map(|place| b"PR"[place % 2]));
            put_back(case, which, longer);
        }
        Fault::Shorter(which, bytes) => {
            let mut shorter = file(case, which);
            shorter.truncate(shorter.len() - bytes);
            put_back(case, which, shorter);
        }
        Fault::Buffer(missing) => case.buffer -= missing,
        _ => {}
    }
}

fn put_back(case: &mut Case, file: File, bytes: Vec<u8>) {
    match file {
        File::Interval => case.interval = bytes,
        File::Correction => case.correction = bytes,
    }
}

/// Two or three faults at once, drawn at random.
pub fn several(random: &mut Random, base: &Base) -> (Case, (u8, u16)) {
    let all = faults(base);
    let mut drawn = vec![random.one_of(&all)];
    for _ in 0..random.within(1..=2) {
        let next = random.one_of(&all);
        if !drawn.iter().any(|fault| fault.hides(&next)) {
            drawn.push(next);
        }
    }
    damaged(base, &drawn)
}

/// An accepted case whose files are damaged without a plan: bytes changed, put in, cut off or random from the start, or the mark of
/// the other form.
pub fn scrambled(random: &mut Random, mut case: Case) -> Case {
    if random.once_in(12) {
        case.interval[1] = if case.interval[1] == b'H' { b'G' } else { b'H' };
        case.name = format!("with the other form's mark {}", case.name);
        return case;
    }
    let which = if random.once_in(2) { File::Interval } else { File::Correction };
    let mut file = match which {
        File::Interval => case.interval.clone(),
        File::Correction => case.correction.clone(),
    };
    match random.below(6) {
        0 => {
            let length = random.below(80);
            file = random.bytes(length);
        }
        1 => file.truncate(random.below(file.len() + 1)),
        2 => {
            let more = random.below(45);
            file.extend(random.bytes(more));
        }
        kind if !file.is_empty() => {
            for _ in 0..random.within(1..=3) {
                let place = random.below(file.len());
                match kind {
                    3 => file[place] = random.draw() as u8,
                    4 => file[place] ^= 1 << random.below(8),
                    _ => file[place] = random.one_of(&[0, 1, 2, 3, 255]),
                }
            }
        }
        _ => {}
    }
    put_back(&mut case, which, file);
    case.name = format!("scrambled {}", case.name);
    case
}
