//! The version, for the calls and for the build script.

/// The version of this crate, 10,000 times the major number, 100 times the minor one, and the patch. The archive is of the same
/// one, as [`version`](crate::calls::version) tells: the build script asks it.
pub const VERSION: u32 = 10_000 * number(env!("CARGO_PKG_VERSION_MAJOR"))
    + 100 * number(env!("CARGO_PKG_VERSION_MINOR"))
    + number(env!("CARGO_PKG_VERSION_PATCH"));

const fn number(digits: &str) -> u32 {
    match u32::from_str_radix(digits, 10) {
        Ok(number) => number,
        Err(_) => panic!("a version's part is a number"),
    }
}
