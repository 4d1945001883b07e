//! The files as plain figures that may be right or wrong, and their bytes.

pub const INTERVAL_HEAD_PH: usize = 15;
pub const INTERVAL_HEAD_PG: usize = 24;
pub const CORRECTION_HEAD: usize = 9;
pub const ROW: usize = 21;
pub const STATEMENT_HEAD_PS: usize = 40;
pub const STATEMENT_HEAD_PT: usize = 49;
pub const LINE: usize = 42;
/// Enough for the longest statement of either form.
pub const STATEMENT_ROOM: usize = STATEMENT_HEAD_PT + 256 * LINE;

pub const THERMAL: u8 = 1;
pub const WIND: u8 = 2;
pub const SOLAR: u8 = 3;

/// The baseline in percent of full load, and the limits of the bids: tier 1 lowest and highest, tier 2 lowest and highest.
#[derive(Clone, Copy, Debug, PartialEq, Eq)]
pub struct Terms {
    pub percent: u8,
    pub limits: [u16; 4],
}

impl Terms {
    /// What a file has that states none.
    pub const OF_01: Terms = Terms { percent: 50, limits: [100, 320, 320, 750] };

    /// The baseline of so many MW in kWh, cut to a whole number; full load is 250 kWh for each MW.
    pub fn baseline(&self, capacity: u16) -> u32 {
        250 * u32::from(capacity) * u32::from(self.percent) / 100
    }

    fn read(bytes: &[u8]) -> Terms {
        Terms { percent: bytes[0], limits: [1, 3, 5, 7].map(|at| number(&bytes[at..at + 2]) as u16) }
    }

    fn bytes(&self) -> Vec<u8> {
        let mut bytes = vec![self.percent];
        bytes.extend(self.limits.into_iter().flat_map(u16::to_le_bytes));
        bytes
    }
}

#[derive(Clone, Debug)]
pub struct Interval {
    pub mark: [u8; 2],
    pub day: u32,
    pub quarter: u8,
    pub tariff: u16,
    pub need: u32,
    /// The count in the head where it is to differ from the rows that follow.
    pub count: Option<u16>,
    /// The terms that the head of a PG file states behind its other fields; a PH file has none.
    pub stated: Option<Terms>,
    pub rows: Vec<Row>,
}

#[derive(Clone, Debug)]
pub struct Correction {
    pub mark: [u8; 2],
    pub day: u32,
    pub quarter: u8,
    pub count: Option<u16>,
    pub rows: Vec<Row>,
}

#[derive(Clone, Copy, Debug, PartialEq, Eq)]
pub struct Row {
    pub mark: [u8; 2],
    pub id: u16,
    pub kind: u8,
    pub capacity: u16,
    pub metered: u32,
    pub status: u8,
    pub offered: u8,
    pub minimum: u32,
    pub bids: [u16; 2],
}

impl Interval {
    pub fn new(tariff: u16, need: u32, rows: Vec<Row>) -> Interval {
        Interval { mark: *b"PH", day: 0, quarter: 0, tariff, need, count: None, stated: None, rows }
    }

    /// The same rows in a PG file of these terms.
    pub fn stating(self, terms: Terms) -> Interval {
        Interval { mark: *b"PG", stated: Some(terms), ..self }
    }

    /// The terms that the rows are held to.
    pub fn terms(&self) -> Terms {
        self.stated.unwrap_or(Terms::OF_01)
    }

    /// The base interval of document 01's figures.
    pub fn x(tariff: u16) -> Interval {
        let rows = vec![
            Row::thermal(1, 100, 9_000).offering(8_000, 200, 400),
            Row::thermal(2, 100, 20_000),
            Row::wind(3, 100, 5_000),
        ];
        Interval::new(tariff, 3_000, rows)
    }

    pub fn bytes(&self) -> Vec<u8> {
        let mut bytes = self.mark.to_vec();
        bytes.extend(self.day.to_le_bytes());
        bytes.push(self.quarter);
        bytes.extend(self.tariff.to_le_bytes());
        bytes.extend(self.need.to_le_bytes());
        bytes.extend(self.count.unwrap_or(self.rows.len() as u16).to_le_bytes());
        bytes.extend(self.stated.iter().flat_map(Terms::bytes));
        bytes.extend(self.rows.iter().flat_map(Row::bytes));
        bytes
    }

    /// The figures of a file of the right length, whatever its marks and ranges; with terms where its mark is that of PG.
    pub fn read(file: &[u8]) -> Option<Interval> {
        let (head, body) = file.split_at_checked(heads(file).0)?;
        let interval = Interval {
            mark: [head[0], head[1]],
            day: number(&head[2..6]),
            quarter: head[6],
            tariff: number(&head[7..9]) as u16,
            need: number(&head[9..13]),
            count: None,
            stated: (head.len() > INTERVAL_HEAD_PH).then(|| Terms::read(&head[INTERVAL_HEAD_PH..])),
            rows: body.chunks_exact(ROW).map(Row::read).collect(),
        };
        (body.len() == ROW * number(&head[13..15]) as usize).then_some(interval)
    }

    /// The same with the rows of a correction in place of its own; both files have to be accepted together.
    pub fn read_pair(interval: &[u8], correction: &[u8]) -> Option<Interval> {
        let mut interval = Interval::read(interval)?;
        let corrected: Vec<Row> =
            correction.get(CORRECTION_HEAD..).unwrap_or_default().chunks_exact(ROW).map(Row::read).collect();
        for row in &mut interval.rows {
            if let Some(&new) = corrected.iter().find(|new| new.id == row.id) {
                *row = new;
            }
        }
        Some(interval)
    }

    /// Length of the statement of this interval.
    pub fn statement_length(&self) -> usize {
        let head = if self.stated.is_some() { STATEMENT_HEAD_PT } else { STATEMENT_HEAD_PS };
        head + LINE * self.rows.len()
    }

    /// A correction of this interval that repeats the rows at the given places.
    pub fn correcting(&self, places: &[usize]) -> Correction {
        let rows = places.iter().map(|&place| self.rows[place]).collect();
        Correction { mark: *b"PK", day: self.day, quarter: self.quarter, count: None, rows }
    }
}

fn number(bytes: &[u8]) -> u32 {
    bytes.iter().rev().fold(0, |number, &byte| number << 8 | u32::from(byte))
}

/// The length of an interval file's head by its mark, and of its statement's: those of PH where the mark is another.
pub fn heads(interval: &[u8]) -> (usize, usize) {
    if interval.starts_with(b"PG") {
        (INTERVAL_HEAD_PG, STATEMENT_HEAD_PT)
    } else {
        (INTERVAL_HEAD_PH, STATEMENT_HEAD_PS)
    }
}

/// The length of a statement of as many lines as an interval file has room for rows.
pub fn statement_length(interval: &[u8]) -> usize {
    let (before_rows, before_lines) = heads(interval);
    before_lines + LINE * (interval.len().saturating_sub(before_rows) / ROW)
}

/// The length of a statement's head by its mark; nothing where it has neither.
pub fn statement_head(statement: &[u8]) -> Option<usize> {
    match statement.get(..2)? {
        b"PS" => Some(STATEMENT_HEAD_PS),
        b"PT" => Some(STATEMENT_HEAD_PT),
        _ => None,
    }
}

impl Correction {
    pub fn bytes(&self) -> Vec<u8> {
        let mut bytes = self.mark.to_vec();
        bytes.extend(self.day.to_le_bytes());
        bytes.push(self.quarter);
        bytes.extend(self.count.unwrap_or(self.rows.len() as u16).to_le_bytes());
        bytes.extend(self.rows.iter().flat_map(Row::bytes));
        bytes
    }
}

impl Row {
    pub fn new(id: u16, kind: u8, capacity: u16, metered: u32) -> Row {
        Row { mark: *b"PR", id, kind, capacity, metered, status: 0, offered: 0, minimum: 0, bids: [0, 0] }
    }

    pub fn thermal(id: u16, capacity: u16, metered: u32) -> Row {
        Row::new(id, THERMAL, capacity, metered)
    }

    pub fn wind(id: u16, capacity: u16, metered: u32) -> Row {
        Row::new(id, WIND, capacity, metered)
    }

    pub fn solar(id: u16, capacity: u16, metered: u32) -> Row {
        Row::new(id, SOLAR, capacity, metered)
    }

    fn read(bytes: &[u8]) -> Row {
        Row {
            mark: [bytes[0], bytes[1]],
            id: number(&bytes[2..4]) as u16,
            kind: bytes[4],
            capacity: number(&bytes[5..7]) as u16,
            metered: number(&bytes[7..11]),
            status: bytes[11],
            offered: bytes[12],
            minimum: number(&bytes[13..17]),
            bids: [number(&bytes[17..19]) as u16, number(&bytes[19..21]) as u16],
        }
    }

    pub fn offering(self, minimum: u32, tier_1: u16, tier_2: u16) -> Row {
        Row { offered: 1, minimum, bids: [tier_1, tier_2], ..self }
    }

    pub fn with_status(self, status: u8) -> Row {
        Row { status, ..self }
    }

    pub fn bytes(&self) -> Vec<u8> {
        let mut bytes = self.mark.to_vec();
        bytes.extend(self.id.to_le_bytes());
        bytes.push(self.kind);
        bytes.extend(self.capacity.to_le_bytes());
        bytes.extend(self.metered.to_le_bytes());
        bytes.extend([self.status, self.offered]);
        bytes.extend(self.minimum.to_le_bytes());
        bytes.extend(self.bids.into_iter().flat_map(u16::to_le_bytes));
        bytes
    }
}
