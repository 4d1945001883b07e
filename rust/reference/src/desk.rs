//! The desk at which one quarter is settled after another.

use crate::accounts::Accounts;
use crate::baseline::Baselines;
use crate::calls::{Calls, MeritOrder};
use crate::files::{Head, MAX_ROWS, Refusal, Row, read_pair};
use crate::rounds::{Payers, Rounds};
use crate::share::{Sharing, Turns};
use crate::statement::{LINE, STATEMENT_HEAD_PS, STATEMENT_HEAD_PT, write_head, write_line};

/// All lists that a settlement needs, with room for as many rows as a file holds: settling takes no memory of its own.
/// Each settlement begins with empty lists, so nothing passes from one to the next.
pub struct Desk {
    rows: Vec<Row>,
    corrected: Vec<Row>,
    merit_order: MeritOrder,
    calls: Calls,
    accounts: Accounts,
    payers: Payers,
    sharing: Sharing,
}

impl Default for Desk {
    fn default() -> Desk {
        Desk::new()
    }
}

impl Desk {
    pub fn new() -> Desk {
        Desk {
            rows: Vec::with_capacity(MAX_ROWS),
            corrected: Vec::with_capacity(MAX_ROWS),
            merit_order: MeritOrder::new(),
            calls: Calls::new(),
            accounts: Accounts::new(),
            payers: Payers::new(),
            sharing: Sharing::new(),
        }
    }

    /// Settles the quarter and writes its statement. The answer is the number of bytes written;
    /// a refusal is a number, 1 to 11 or 14, with a place, and leaves the buffer as it was.
    pub fn settle(&mut self, interval: &[u8], correction: &[u8], statement: &mut [u8]) -> Result<usize, Refusal> {
        let head = read_pair(interval, correction, &mut self.rows, &mut self.corrected)?;
        let before_lines = if head.stated.is_some() { STATEMENT_HEAD_PT } else { STATEMENT_HEAD_PS };
        let length = before_lines + LINE * head.rows;
        let (out, body) = statement.get_mut(..length).ok_or((11, 0))?.split_at_mut(before_lines);
        let baselines = Baselines::of_quarter(&self.rows, head.terms(), head.need);
        let rounds = self.work_out(&head, &baselines);
        write_head(out, &head, &self.calls, self.accounts.total, &rounds, baselines.averaged());
        self.write_lines(body.as_chunks_mut().0);
        Ok(length)
    }

    /// Calls, compensations and penalties, payments, cuts: each follows from what stands before it.
    fn work_out(&mut self, head: &Head, baselines: &Baselines) -> Rounds {
        let Desk { rows, merit_order, calls, accounts, payers, sharing, .. } = self;
        let turns = Turns::of(head.quarter, head.rows);
        merit_order.call(rows, baselines, head.need, turns, sharing, calls);
        accounts.enter(rows, baselines, calls);
        payers.enter(rows, baselines, head.tariff);
        let rounds = payers.pay(accounts.total, turns, sharing);
        accounts.cut_and_return(rounds.shortfall, turns, sharing);
        rounds
    }

    fn write_lines(&self, lines: &mut [[u8; LINE]]) {
        let rows = self.rows.iter().zip(&self.calls.called).zip(&self.accounts.of_rows).zip(&self.payers.of_rows);
        for (line, (((row, &called), account), payer)) in lines.iter_mut().zip(rows) {
            write_line(line, row.id, called, account, payer);
        }
    }
}
