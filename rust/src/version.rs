use crate::link;

/// The version that this crate was written for, as [`version`] counts.
pub const VERSION: u32 = 600;

/// The version of the library that is linked: 10,000 times the major number, 100 times the minor
/// one and the patch. A host that compares it with [`VERSION`] at its start knows that the crate and
/// the library belong together.
///
/// ```
/// use trnadulek::{version, VERSION};
///
/// assert_eq!(version(), VERSION);
/// ```
pub fn version() -> u32 {
    link::version()
}

#[cfg(test)]
mod tests {
    use super::{version, VERSION};
    use crate::link::size;

    #[test]
    fn the_version_is_the_library_s_and_the_crate_s() {
        let number = |text: &str| text.parse::<u32>().unwrap();
        let major = number(env!("CARGO_PKG_VERSION_MAJOR"));
        let minor = number(env!("CARGO_PKG_VERSION_MINOR"));
        let patch = number(env!("CARGO_PKG_VERSION_PATCH"));
        assert_eq!(VERSION, 10_000 * major + 100 * minor + patch);
        assert_eq!(version(), VERSION);
    }

    #[test]
    fn the_sizes_are_the_library_s() {
        let sizes = [0, 1, 2, 3, 4, 5, 6, u32::MAX].map(|which| size(which) as usize);
        let wanted = [
            crate::HEAD_SIZE,
            crate::STATE_SIZE,
            crate::MEMORY_SIZE,
            crate::IMAGE_SIZE,
            crate::LARGEST_BUDGET as usize,
            crate::LISTING_PER_BYTE,
            0,
            0,
        ];
        assert_eq!(sizes, wanted);
    }
}
