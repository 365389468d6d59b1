use std::io::{self, Write};
use std::time::{Duration, Instant};

use crate::{unix, words};

/// A run is long from here on.
const LONG: Duration = Duration::from_secs(1);

const BETWEEN: Duration = Duration::from_millis(200);

/// One line on standard error that says how far a long run has come, where a person watches.
pub struct Progress {
    budget: u64,
    /// When to show it next; never where nobody watches.
    next: Option<Instant>,
    shown: bool,
}

impl Progress {
    pub fn new(budget: u64) -> Self {
        let watched = unix::is_terminal(&io::stderr());
        Progress {
            budget,
            next: watched.then(|| Instant::now() + LONG),
            shown: false,
        }
    }

    pub fn at(&mut self, spent: u64) {
        let now = Instant::now();
        if self.next.map_or(true, |next| now < next) {
            return;
        }
        let percent = u128::from(spent) * 100 / u128::from(self.budget.max(1));
        let _ = write!(
            io::stderr(),
            "\r{:3}%  {} of {} cycles",
            percent.min(100),
            words::grouped(spent),
            words::grouped(self.budget)
        );
        self.next = Some(now + BETWEEN);
        self.shown = true;
    }
}

impl Drop for Progress {
    fn drop(&mut self) {
        if self.shown {
            let _ = write!(io::stderr(), "\r\x1b[K");
        }
    }
}
