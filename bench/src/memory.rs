//! What the C library does with memory that was freed.

/// Has the C library keep what is freed for the next run, as far as it can. Else it gives back much
/// of it, and takes it anew: the page faults of a run can last as long as what it measures, and which
/// runs meet them depends on what was freed before.
#[cfg(all(target_os = "linux", target_env = "gnu"))]
pub fn keep_freed() {
    use std::ffi::c_int;

    extern "C" {
        fn mallopt(parameter: c_int, value: c_int) -> c_int;
    }
    const M_TRIM_THRESHOLD: c_int = -1;
    const M_MMAP_MAX: c_int = -4;
    // SAFETY: `mallopt` may be called at any time, with any numbers.
    unsafe {
        mallopt(M_MMAP_MAX, 0);
        mallopt(M_TRIM_THRESHOLD, -1);
    }
}

#[cfg(not(all(target_os = "linux", target_env = "gnu")))]
pub fn keep_freed() {}
