//! Marks for bench/count.c, which counts the instructions that an emulator executes between two of them.

extern "C" {
    fn getppid() -> i32;
}

/// Whether instructions are counted, and not time.
pub fn wanted() -> bool {
    std::env::args().nth(1).as_deref() == Some("counts")
}

/// The work once, and once more between two marks.
pub fn marked(mut work: impl FnMut()) {
    work();
    unsafe { getppid() };
    work();
    unsafe { getppid() };
}
