//! A statement's bytes as figures: money in fen, energy in kWh, prices in li for each kWh.

/// The head of a PH file's statement.
pub const STATEMENT_HEAD_PS: usize = 40;
/// The head of a PG file's statement.
pub const STATEMENT_HEAD_PT: usize = 49;
pub const LINE: usize = 42;
/// Enough for the longest statement of either form, which has 256 lines.
pub const STATEMENT_ROOM: usize = STATEMENT_HEAD_PT + LINE * 256;

/// The terms under which a quarter is settled.
#[derive(Clone, Copy, Debug, PartialEq, Eq)]
pub struct Terms {
    /// The baseline in percent of full load.
    pub percent: u8,
    /// The limits of the bids: tier 1 lowest and highest, tier 2 lowest and highest.
    pub limits: [u16; 4],
}

impl Terms {
    /// The terms of a file that states none.
    pub const OF_01: Terms = Terms { percent: 50, limits: [100, 320, 320, 750] };
}

#[derive(Clone, Copy, Debug, PartialEq, Eq)]
pub struct Head {
    /// Counted from 2000-01-01.
    pub day: u32,
    /// The quarter hour of the day, 0 to 95.
    pub quarter: u8,
    /// The clearing prices of tiers 1 and 2, 0 where nobody who was called in the tier delivered.
    pub prices: [u16; 2],
    /// The compensations of all rows together.
    pub total: u64,
    /// What the payers' caps leave uncovered of the total, before penalties.
    pub shortfall: u64,
    /// The rounds in which a payer reached its cap.
    pub rounds: u16,
    /// The need that no offer covered.
    pub uncovered: u32,
    /// How many lines follow.
    pub rows: u16,
    pub terms: Terms,
    /// Whether the head states its terms (PT), or has those of document 01 without a word (PS).
    pub stated: bool,
    /// Payer visits: in each round one for each payer of weight above 0 that has not reached its cap in an earlier one, also in the
    /// last round, in which nobody does. With m payers of weight above 0 at most m(m + 1)/2.
    pub visits: u32,
    /// Whether the thermal average took the baseline's place in what is paid, owed and weighed.
    pub averaged: bool,
}

#[derive(Clone, Copy, Debug, PartialEq, Eq)]
pub struct Line {
    /// The row's id.
    pub id: u16,
    /// The energy for which it was called in tiers 1 and 2.
    pub called: [u32; 2],
    /// What it is paid before any cut.
    pub compensation: u32,
    /// Its part of what caps and penalties leave open.
    pub cut: u32,
    /// The energy by which it shares the bill.
    pub weight: u32,
    /// The most it may be made to pay.
    pub cap: u32,
    pub paid: u32,
    /// The round in which it reached its cap, or 0.
    pub closing: u16,
    /// What it owes for energy that it was called for and, reduced for reasons of its own, did not deliver.
    pub penalty: u32,
    /// Its part of the penalties that no shortfall needed.
    pub returned: u32,
}

fn u16_at(bytes: &[u8], at: usize) -> u16 {
    u16::from_le_bytes([bytes[at], bytes[at + 1]])
}

fn u32_at(bytes: &[u8], at: usize) -> u32 {
    u32::from(u16_at(bytes, at)) | u32::from(u16_at(bytes, at + 2)) << 16
}

fn u64_at(bytes: &[u8], at: usize) -> u64 {
    u64::from(u32_at(bytes, at)) | u64::from(u32_at(bytes, at + 4)) << 32
}

/// How many bytes stand before the lines, by the head's mark; nothing where the bytes do not begin with a whole head.
fn head_length(statement: &[u8]) -> Option<usize> {
    let length = match statement.get(..2)? {
        b"PS" => STATEMENT_HEAD_PS,
        b"PT" => STATEMENT_HEAD_PT,
        _ => return None,
    };
    (statement.len() >= length).then_some(length)
}

/// The head of a statement of either form; nothing where the bytes do not begin with one. Its last byte is 0 or 1.
pub fn head(statement: &[u8]) -> Option<Head> {
    let length = head_length(statement)?;
    let averaged = match statement[length - 1] {
        0 => false,
        1 => true,
        _ => return None,
    };
    let stated = length == STATEMENT_HEAD_PT;
    let terms = if stated {
        Terms { percent: statement[35], limits: [36, 38, 40, 42].map(|at| u16_at(statement, at)) }
    } else {
        Terms::OF_01
    };
    Some(Head {
        day: u32_at(statement, 2),
        quarter: statement[6],
        prices: [u16_at(statement, 7), u16_at(statement, 9)],
        total: u64_at(statement, 11),
        shortfall: u64_at(statement, 19),
        rounds: u16_at(statement, 27),
        uncovered: u32_at(statement, 29),
        rows: u16_at(statement, 33),
        terms,
        stated,
        visits: u32_at(statement, length - 5),
        averaged,
    })
}

/// The lines of a statement, as many as its head says and the bytes hold; none where there is no head. What stands behind
/// them in a longer buffer is passed over.
pub fn lines(statement: &[u8]) -> impl Iterator<Item = Line> {
    let rows = head(statement).map_or(0, |head| head.rows);
    let bytes = head_length(statement).map_or(&[][..], |length| &statement[length..]);
    bytes.chunks_exact(LINE).take(usize::from(rows)).map(|line| Line {
        id: u16_at(line, 2),
        called: [u32_at(line, 4), u32_at(line, 8)],
        compensation: u32_at(line, 12),
        cut: u32_at(line, 16),
        weight: u32_at(line, 20),
        cap: u32_at(line, 24),
        paid: u32_at(line, 28),
        closing: u16_at(line, 32),
        penalty: u32_at(line, 34),
        returned: u32_at(line, 38),
    })
}

#[cfg(test)]
mod tests {
    use super::{Head, LINE, Line, STATEMENT_HEAD_PS, STATEMENT_HEAD_PT, STATEMENT_ROOM, Terms, head, lines};

    /// A record of fields in their widths, behind its mark.
    fn record(mark: &[u8; 2], fields: &[(u64, usize)]) -> Vec<u8> {
        let mut bytes = mark.to_vec();
        for &(field, width) in fields {
            bytes.extend(&field.to_le_bytes()[..width]);
        }
        bytes
    }

    const STATED: Terms = Terms { percent: 0xb1, limits: [0xb2b3, 0xb4b5, 0xb6b7, 0xb8b9] };

    /// A statement of two lines in either form, no two bytes of its head alike. The flag is given as the byte that it is.
    fn statement(stated: bool, averaged: u8) -> Vec<u8> {
        let mut fields = vec![
            (0x1020_3040, 4),
            (95, 1),
            (320, 2),
            (750, 2),
            (0x0102_0304_0506_0708, 8),
            (0x1112_1314_1516_1718, 8),
            (27, 2),
            (0x2122_2324, 4),
            (2, 2),
        ];
        if stated {
            fields.push((STATED.percent.into(), 1));
            fields.extend(STATED.limits.map(|limit| (limit.into(), 2)));
        }
        fields.extend([(0xa1a2_a3a4, 4), (averaged.into(), 1)]);
        let mut bytes = record(if stated { b"PT" } else { b"PS" }, &fields);
        for id in [7, 0x0908] {
            let widths = [2, 4, 4, 4, 4, 4, 4, 4, 2, 4, 4];
            let fields =
                [id, 0x3132_3334, 42, 0x4142_4344, 44, 0x5152_5354, 46, 0x6162_6364, 0x7172, 0x8182_8384, 0x9192_9394];
            bytes.extend(record(b"PL", &fields.into_iter().zip(widths).collect::<Vec<_>>()));
        }
        bytes
    }

    fn is_read(stated: bool, terms: Terms, averaged: bool) {
        let bytes = statement(stated, averaged.into());
        let due = Head {
            day: 0x1020_3040,
            quarter: 95,
            prices: [320, 750],
            total: 0x0102_0304_0506_0708,
            shortfall: 0x1112_1314_1516_1718,
            rounds: 27,
            uncovered: 0x2122_2324,
            rows: 2,
            terms,
            stated,
            visits: 0xa1a2_a3a4,
            averaged,
        };
        assert_eq!(head(&bytes), Some(due));
        let line = |id| Line {
            id,
            called: [0x3132_3334, 42],
            compensation: 0x4142_4344,
            cut: 44,
            weight: 0x5152_5354,
            cap: 46,
            paid: 0x6162_6364,
            closing: 0x7172,
            penalty: 0x8182_8384,
            returned: 0x9192_9394,
        };
        assert_eq!(lines(&bytes).collect::<Vec<_>>(), [line(7), line(0x0908)]);
    }

    #[test]
    fn every_field_is_read_where_it_stands() {
        for averaged in [false, true] {
            is_read(false, Terms { percent: 50, limits: [100, 320, 320, 750] }, averaged);
            is_read(true, STATED, averaged);
        }
    }

    #[test]
    fn a_flag_other_than_0_or_1_is_no_head() {
        for (stated, byte) in [false, true].into_iter().flat_map(|stated| (2..=255).map(move |byte| (stated, byte))) {
            let other = statement(stated, byte);
            assert_eq!(head(&other), None, "{byte}");
            assert_eq!(lines(&other).count(), 0, "{byte}");
        }
    }

    #[test]
    fn lines_end_where_the_head_says() {
        for (stated, before_lines) in [(false, STATEMENT_HEAD_PS), (true, STATEMENT_HEAD_PT)] {
            let mut longer = statement(stated, 1);
            longer.extend([0; 3 * LINE]);
            assert_eq!(lines(&longer).count(), 2);
            assert_eq!(lines(&longer[..before_lines + LINE + 1]).count(), 1);
            assert_eq!(lines(&longer[..before_lines]).count(), 0);
            assert!(head(&longer[..before_lines]).is_some());
            assert_eq!(lines(&longer[..before_lines - 1]).count(), 0);
            assert_eq!(head(&longer[..before_lines - 1]), None);
            assert_eq!(lines(&longer[1..]).count(), 0);
        }
        assert_eq!(head(&[]), None);
        assert_eq!(head(b"P"), None);
    }

    #[test]
    fn a_head_of_another_mark_is_none() {
        for mark in [*b"PH", *b"PG", *b"PU", *b"pt", *b"TP"] {
            let mut other = statement(true, 0);
            other[..2].copy_from_slice(&mark);
            assert_eq!(head(&other), None);
            assert_eq!(lines(&other).count(), 0);
        }
    }

    #[test]
    fn the_room_is_that_of_the_longest_statement() {
        assert_eq!(STATEMENT_ROOM, 10_801);
    }
}
