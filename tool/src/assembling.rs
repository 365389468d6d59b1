//! Lines of spelling that the proved core makes bytes of, and what is wrong with one.

use std::path::Path;

use trnadulek::{assemble, Fault, Refusal};

use crate::input::{Input, LARGEST};
use crate::refused;
use crate::trouble::Trouble;

/// So much of a line is shown.
const SHOWN: usize = 80;

pub struct Text(Input);

impl Text {
    pub fn read(path: &Path) -> Result<Self, Trouble> {
        Input::read_whole(path, LARGEST).map(Text)
    }

    pub fn is_empty(&self) -> bool {
        self.0.bytes.is_empty()
    }

    pub fn name(&self) -> String {
        self.0.name()
    }

    /// Its bytes, the first one at an address, where no line has more bytes than characters.
    pub fn bytes(&self, first: u16) -> Result<Vec<u8>, String> {
        self.bytes_within(first, self.0.bytes.len(), "the output")
    }

    /// At most so many of them; or the words for the line that is at fault. Where that is for the
    /// room, it is said what ends there.
    pub fn bytes_within(&self, first: u16, room: usize, ending: &str) -> Result<Vec<u8>, String> {
        let mut bytes = vec![0; room];
        let length = assemble(&self.0.bytes, first, &mut bytes);
        let length = length.map_err(|fault| self.said(fault, ending))?;
        bytes.truncate(length);
        Ok(bytes)
    }

    fn said(&self, fault: Fault, ending: &str) -> String {
        let Fault { line, refusal } = fault;
        let found = match refusal {
            Refusal::Room => format!("found {}, which goes past {ending}", self.line(line)),
            _ => format!("found {}", self.line(line)),
        };
        let said = refused::said(refusal, &found);
        format!("{}: line {line}: {said}", self.name())
    }

    /// A line between quotes, whatever is in it.
    fn line(&self, number: usize) -> String {
        let mut lines = self.0.bytes.split_inclusive(|byte| *byte == b'\n');
        let line = lines.nth(number - 1).unwrap_or_default();
        let (line, ended) = match line.split_last() {
            Some((b'\n', line)) => (line, true),
            _ => (line, false),
        };
        let shown = &line[..line.len().min(SHOWN)];
        let more = if shown.len() < line.len() { ".." } else { "" };
        let end = if ended { "" } else { " and no line feed" };
        format!("\"{}{more}\"{end}", shown.escape_ascii())
    }
}
