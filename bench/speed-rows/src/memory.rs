//! The memory of this process, by what Linux says of it.

use std::fs;

/// The most memory that was held at once during a piece of work, in bytes.
pub fn peak(work: impl FnOnce()) -> u64 {
    // The peak begins anew from what is held now.
    fs::write("/proc/self/clear_refs", "5").expect("a peak of memory that can be set back");
    work();
    let status = fs::read_to_string("/proc/self/status").expect("what Linux says of the process");
    let said =
        status.lines().find_map(|line| line.strip_prefix("VmHWM:")).expect("a peak of memory");
    let number = said.trim().strip_suffix(" kB").expect("a peak in KiB");
    1024 * number.parse::<u64>().expect("a number of KiB")
}
