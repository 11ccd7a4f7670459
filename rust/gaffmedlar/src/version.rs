//! The version of the archive that is linked, which has to be this crate's.
use crate::wire;
use std::sync::atomic::{AtomicBool, Ordering};

/// The version of this crate, as the file VERSION of the repository has it.
pub const VERSION: &str = env!("CARGO_PKG_VERSION");

/// The version of the archive, which is [`VERSION`] wherever another function of this crate comes back.
///
/// ```
/// assert_eq!(gaffmedlar::library_version(), gaffmedlar::VERSION);
/// ```
pub fn library_version() -> String {
    words(wire::version())
}

/// 300 as 0.3.0.
fn words(number: u32) -> String {
    let (first, second, third) = (number / 10_000, number / 100 % 100, number % 100);
    format!("{first}.{second}.{third}")
}

/// Refuses an archive of another version, whose answers could mean something else. It is looked at before the first call of a service.
#[inline]
pub(crate) fn compare() {
    static SAME: AtomicBool = AtomicBool::new(false);
    if !SAME.load(Ordering::Relaxed) {
        look();
        SAME.store(true, Ordering::Relaxed);
    }
}

#[cold]
fn look() {
    let linked = library_version();
    if linked != VERSION {
        panic!(
            "{} is version {linked}, and the crate gaffmedlar is version {VERSION}. They belong together: `tools/build library` in the repository's root makes the archive of that version",
            env!("GAFFMEDLAR_ARCHIVE")
        );
    }
}
