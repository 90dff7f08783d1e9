//! The only call to the C library, and the only unsafe code of this package.

#![allow(unsafe_code)]

/// By default a write past the process's file size limit ends the process with a signal. If the signal is ignored, the write fails as on a
/// full disk, and the program can clean up and report the error.
pub fn ignore_file_size_signal() {
    const SIGXFSZ: i32 = 25;
    const SIG_IGN: usize = 1;
    extern "C" {
        fn signal(number: i32, handler: usize) -> usize;
    }
    // The numbers are those of Linux on x86-64, the only target of the archives. No handler runs.
    unsafe { signal(SIGXFSZ, SIG_IGN) };
}
