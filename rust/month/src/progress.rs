//! A progress bar on standard error, where that is a terminal.

use std::io::{IsTerminal, Write, stderr};
use std::time::{Duration, Instant};

const WIDTH: usize = 30;
const PAUSE: Duration = Duration::from_millis(100);

pub struct Bar {
    on: bool,
    /// How many columns stand on the line now.
    columns: usize,
    drawn: Option<Instant>,
}

impl Bar {
    /// A bar where standard error is a terminal.
    pub fn on_terminal() -> Bar {
        Bar { on: stderr().is_terminal(), columns: 0, drawn: None }
    }

    /// A bar that is never drawn.
    pub fn none() -> Bar {
        Bar { on: false, columns: 0, drawn: None }
    }

    /// Says how far a stage has come. It is drawn at most ten times a second.
    pub fn show(&mut self, stage: &str, done: usize, all: usize) {
        let now = Instant::now();
        if self.on && self.drawn.is_none_or(|drawn| now - drawn >= PAUSE) {
            let picture = picture(stage, done, all);
            self.write(&format!("\r{picture:<0$}", self.columns));
            (self.columns, self.drawn) = (picture.len(), Some(now));
        }
    }

    /// Takes the bar off its line, so that something else can be printed there.
    pub fn hide(&mut self) {
        if self.columns > 0 {
            self.write(&format!("\r{:1$}\r", "", self.columns));
            self.columns = 0;
        }
    }

    /// A bar that cannot be drawn is no reason to stop.
    fn write(&self, text: &str) {
        let mut stderr = stderr().lock();
        let _ = stderr.write_all(text.as_bytes()).and_then(|()| stderr.flush());
    }
}

fn picture(stage: &str, done: usize, all: usize) -> String {
    let full = (done * WIDTH).checked_div(all).unwrap_or(WIDTH);
    format!("{stage} [{}{}] {done} of {all}", "#".repeat(full), ".".repeat(WIDTH - full))
}

#[cfg(test)]
mod tests {
    use super::picture;

    #[test]
    fn a_bar_fills_from_left_to_right() {
        assert_eq!(picture("reading", 0, 96), "reading [..............................] 0 of 96");
        assert_eq!(picture("reading", 48, 96), "reading [###############...............] 48 of 96");
        assert_eq!(picture("settling", 2_975, 2_976), "settling [#############################.] 2975 of 2976");
        assert_eq!(picture("settling", 2_976, 2_976), "settling [##############################] 2976 of 2976");
        assert_eq!(picture("reading", 0, 0), "reading [##############################] 0 of 0");
    }
}
