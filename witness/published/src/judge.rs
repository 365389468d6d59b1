//! The cores that a case is run on.

use second::{State, Stepped};

/// A core, reached by one step of it.
pub struct Judge {
    pub name: &'static str,
    pub step: fn(State, &mut [u8]) -> Stepped,
}

#[cfg(feature = "proved")]
pub const JUDGES: &[Judge] = &[
    Judge {
        name: "second",
        step: second::step,
    },
    Judge {
        name: "proved",
        step: crate::proved::step,
    },
];

#[cfg(not(feature = "proved"))]
pub const JUDGES: &[Judge] = &[Judge {
    name: "second",
    step: second::step,
}];

/// A sentence about which cores are judged.
pub fn sentence() -> &'static str {
    if cfg!(feature = "proved") {
        "judged: the second program and the proved core"
    } else {
        "judged: the second program alone (built without the proved core)"
    }
}
