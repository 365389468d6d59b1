/// How a command ended, as `cmp` and `diff` say it: the highest of several holds.
#[derive(Clone, Copy, PartialEq, Eq, PartialOrd, Ord, Debug)]
pub enum Status {
    /// It was done, and where something was asked, the answer is yes.
    Done,
    /// The answer is no.
    No,
    /// It could not be done.
    Trouble,
}

impl Status {
    pub fn number(self) -> u8 {
        match self {
            Status::Done => 0,
            Status::No => 1,
            Status::Trouble => 2,
        }
    }
}

/// What a command came to.
pub struct Report {
    /// For standard output.
    pub text: String,
    /// Lines for standard error.
    pub complaints: Vec<String>,
    pub status: Status,
    writes: bool,
}

impl Report {
    /// An answer; no file was written.
    pub fn answer(text: String, status: Status) -> Self {
        Report {
            text,
            complaints: Vec::new(),
            status,
            writes: false,
        }
    }

    /// What was written, in one line.
    pub fn wrote(line: String) -> Self {
        Report {
            writes: true,
            ..Report::answer(line + "\n", Status::Done)
        }
    }

    /// The answer is no, and nothing was written.
    pub fn refused(line: String) -> Self {
        Report {
            complaints: vec![format!("{line}; nothing was written")],
            ..Report::answer(String::new(), Status::No)
        }
    }

    /// With lines before what was written.
    pub fn after(self, lines: &str) -> Self {
        Report {
            text: lines.to_string() + &self.text,
            ..self
        }
    }

    /// What was written, for the end of another line.
    pub fn written(&self) -> Option<String> {
        let last = self.text.lines().last().unwrap_or_default();
        self.writes.then(|| format!("; {last}"))
    }
}
