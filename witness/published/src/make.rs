//! Makes a test set from mGBA's core.

#[cfg(feature = "mgba")]
mod from_mgba;
#[cfg(feature = "mgba")]
mod place;
#[cfg(feature = "mgba")]
mod write;

#[cfg(feature = "mgba")]
pub use from_mgba::make;

/// Without mGBA's core there is nothing to make a set from.
#[cfg(not(feature = "mgba"))]
pub fn make(
    _folder: &std::path::Path,
    _seed: u64,
    _cases: u64,
    _out: &mut impl std::io::Write,
) -> Result<(), String> {
    Err("make needs mGBA's core: build with the feature mgba".to_string())
}
