//! The one table of the places where mGBA may part from document 01. An excuse
//! says exactly which other answer mGBA must give there; any third answer fails.

use crate::paper::{opcode, pending, HALT, STOP};
use second::{Ime, Mode, State};

/// The part of a step's outcome that an excuse can touch.
#[derive(Clone, Copy, PartialEq, Eq, Debug)]
pub struct Seen {
    pub state: State,
    pub cycles: u32,
}

pub struct Excuse {
    pub name: &'static str,
    pub reason: &'static str,
    /// Whether the step that is due, from this state and memory, is the place.
    applies: fn(&State, &[u8]) -> bool,
    /// What document 01's rule says of its own outcome there, from this state.
    rule: fn(&State, &Seen) -> bool,
    /// From document 01's outcome to the one that mGBA must show.
    turn: fn(Seen) -> Seen,
    /// From mGBA's outcome back to document 01's.
    back: fn(Seen) -> Seen,
}

pub const TABLE: [Excuse; 2] = [
    Excuse {
        name: "STOP's cycles",
        reason: "house rule: STOP costs 1 cycle; mGBA counts one for each of its two bytes",
        applies: |state, memory| opcode(state, memory) == Some(STOP),
        rule: |_, seen| seen.cycles == 1,
        turn: |seen| with_cycles(seen, seen.cycles + 1),
        back: |seen| with_cycles(seen, seen.cycles - 1),
    },
    Excuse {
        name: "HALT under Arming",
        reason: "document 02, M-100: with a request pending PC stays at the HALT, and the handler \
                 returns to it; mGBA goes on after it",
        // In Repeat the first byte does not move PC, and mGBA's stays too.
        applies: |state, memory| {
            opcode(state, memory) == Some(HALT)
                && state.ime == Ime::Arming
                && [Mode::Running, Mode::Halted].contains(&state.mode)
                && pending(memory) != 0
        },
        rule: |before, seen| seen.state.pc == before.pc,
        turn: |seen| with_pc(seen, seen.state.pc.wrapping_add(1)),
        back: |seen| with_pc(seen, seen.state.pc.wrapping_sub(1)),
    },
];

fn with_cycles(seen: Seen, cycles: u32) -> Seen {
    Seen { cycles, ..seen }
}

fn with_pc(seen: Seen, pc: u16) -> Seen {
    let state = State { pc, ..seen.state };
    Seen { state, ..seen }
}

/// The excuse for the step that is due, as its place in the table.
pub fn due(state: &State, memory: &[u8]) -> Option<usize> {
    TABLE
        .iter()
        .position(|excuse| (excuse.applies)(state, memory))
}

/// What mGBA must show where document 01 says `seen`; nothing if it can't say that.
pub fn turned(index: usize, before: &State, seen: Seen) -> Option<Seen> {
    let excuse = &TABLE[index];
    (excuse.rule)(before, &seen).then(|| (excuse.turn)(seen))
}

/// What document 01 says where mGBA showed `seen`.
pub fn back(index: usize, seen: Seen) -> Seen {
    (TABLE[index].back)(seen)
}

/// How often each excuse was needed.
pub type Uses = [u64; TABLE.len()];

#[cfg(test)]
mod tests {
    use super::*;
    use crate::draw::{LIVE_MODES, SWITCHES};
    use crate::paper::{IE, IF};

    const STOPS: Option<usize> = Some(0);
    const HALTS: Option<usize> = Some(1);

    /// The excuse for a byte at 0, under every switch and in every live mode.
    fn due_at(byte: u8, enabled: u8, raised: u8) -> Vec<Vec<Option<usize>>> {
        let mut memory = vec![0; 65_536];
        memory[0] = byte;
        memory[usize::from(IE)] = enabled;
        memory[usize::from(IF)] = raised;
        let due = |ime, mode| {
            let state = State::default();
            due(&State { ime, mode, ..state }, &memory)
        };
        let under = |ime| LIVE_MODES.map(|mode| due(ime, mode)).to_vec();
        SWITCHES.map(under).to_vec()
    }

    #[test]
    fn the_excuses_are_narrow() {
        let never = [None; 3];
        let running_or_woken = [HALTS, None, HALTS];
        assert_eq!(due_at(HALT, 1, 1), [never, running_or_woken, never]);
        assert_eq!(due_at(HALT, 0xE1, 0xFE), [never; 3]);
        assert_eq!(due_at(STOP, 1, 1), [[STOPS; 3], [STOPS; 3], never]);
        assert_eq!(due_at(STOP, 0, 1), [[STOPS, STOPS, None]; 3]);
        for byte in (0..=255).filter(|byte| ![HALT, STOP].contains(byte)) {
            assert_eq!(due_at(byte, 1, 1), [never; 3], "{byte:02X}");
        }
    }

    fn seen(pc: u16, cycles: u32) -> Seen {
        let state = State::default();
        Seen {
            state: State { pc, ..state },
            cycles,
        }
    }

    #[test]
    fn an_excuse_does_not_cover_a_broken_rule() {
        let turned = |index, pc, cycles| turned(index, &State::default(), seen(pc, cycles));
        assert_eq!(turned(0, 2, 1), Some(seen(2, 2)));
        assert_eq!(turned(0, 2, 3), None);
        assert_eq!(turned(1, 0, 1), Some(seen(1, 1)));
        assert_eq!(turned(1, 1, 1), None);
    }

    #[test]
    fn every_excuse_leads_there_and_back() {
        for (index, excuse) in TABLE.iter().enumerate() {
            for pc in [0x0000, 0x0150, 0xFFFF] {
                let there = (excuse.turn)(seen(pc, 1));
                assert_ne!(there, seen(pc, 1));
                assert_eq!(back(index, there), seen(pc, 1));
            }
        }
    }
}
