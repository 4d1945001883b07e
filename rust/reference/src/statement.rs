//! The statement: written as bytes, read back as text.

use std::fmt::Write;

use crate::accounts::Account;
use crate::calls::Calls;
use crate::files::Head;
use crate::rounds::{Payer, Rounds};

pub const STATEMENT_HEAD_PS: usize = 40;
/// The head of a PG file's statement: the terms stand before the last two fields.
pub const STATEMENT_HEAD_PT: usize = 49;
pub const LINE: usize = 42;

/// Widths of the fields after the mark.
const PS_FIELDS: [usize; 11] = [4, 1, 2, 2, 8, 8, 2, 4, 2, 4, 1];
const PT_FIELDS: [usize; 16] = [4, 1, 2, 2, 8, 8, 2, 4, 2, 1, 2, 2, 2, 2, 4, 1];
const LINE_FIELDS: [usize; 11] = [2, 4, 4, 4, 4, 4, 4, 4, 2, 4, 4];

/// Writes the head into as many bytes as its form has.
pub(crate) fn write_head(out: &mut [u8], interval: &Head, calls: &Calls, total: u64, rounds: &Rounds, averaged: bool) {
    out[..2].copy_from_slice(if interval.stated.is_some() { b"PT" } else { b"PS" });
    out[2..6].copy_from_slice(&interval.day.to_le_bytes());
    out[6] = interval.quarter;
    out[7..9].copy_from_slice(&calls.prices[0].to_le_bytes());
    out[9..11].copy_from_slice(&calls.prices[1].to_le_bytes());
    out[11..19].copy_from_slice(&total.to_le_bytes());
    out[19..27].copy_from_slice(&rounds.shortfall.to_le_bytes());
    out[27..29].copy_from_slice(&rounds.count.to_le_bytes());
    out[29..33].copy_from_slice(&calls.uncovered.to_le_bytes());
    out[33..35].copy_from_slice(&(interval.rows as u16).to_le_bytes());
    let (visits, flag) = (out.len() - 5, out.len() - 1);
    if let Some(stated) = interval.stated {
        out[35..visits].copy_from_slice(&stated.bytes());
    }
    out[visits..flag].copy_from_slice(&rounds.visits.to_le_bytes());
    out[flag] = averaged.into();
}

pub(crate) fn write_line(out: &mut [u8; LINE], id: u16, called: [u32; 2], account: &Account, payer: &Payer) {
    out[..2].copy_from_slice(b"PL");
    out[2..4].copy_from_slice(&id.to_le_bytes());
    out[4..8].copy_from_slice(&called[0].to_le_bytes());
    out[8..12].copy_from_slice(&called[1].to_le_bytes());
    out[12..16].copy_from_slice(&account.compensation.to_le_bytes());
    out[16..20].copy_from_slice(&account.cut.to_le_bytes());
    out[20..24].copy_from_slice(&payer.weight.to_le_bytes());
    out[24..28].copy_from_slice(&payer.cap.to_le_bytes());
    out[28..32].copy_from_slice(&payer.paid.to_le_bytes());
    out[32..34].copy_from_slice(&payer.closing.to_le_bytes());
    out[34..38].copy_from_slice(&account.penalty.to_le_bytes());
    out[38..42].copy_from_slice(&account.returned.to_le_bytes());
}

/// A statement as text: a line for the head and for each row, its fields in decimal with one space between.
pub fn lines_of_text(statement: &[u8]) -> String {
    let mut text = String::new();
    let (length, fields) = if statement.starts_with(b"PT") {
        (STATEMENT_HEAD_PT, &PT_FIELDS[..])
    } else {
        (STATEMENT_HEAD_PS, &PS_FIELDS[..])
    };
    let (head, body) = statement.split_at(length);
    line_of_text(head, fields, &mut text);
    for line in body.chunks_exact(LINE) {
        line_of_text(line, &LINE_FIELDS, &mut text);
    }
    text
}

fn line_of_text(record: &[u8], widths: &[usize], text: &mut String) {
    let mut fields = &record[2..];
    for (place, &width) in widths.iter().enumerate() {
        let (field, rest) = fields.split_at(width);
        let number = field.iter().rev().fold(0, |number, &byte| number << 8 | u64::from(byte));
        let space = if place == 0 { "" } else { " " };
        write!(text, "{space}{number}").expect("writing to a string");
        fields = rest;
    }
    text.push('\n');
}
