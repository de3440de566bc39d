//! How wide the terminal is. The one place that calls the C library itself, which the standard
//! library links in any case.

/// What the system tells of a terminal's window.
#[repr(C)]
#[derive(Default)]
struct Window {
    rows: u16,
    columns: u16,
    pixels: [u16; 2],
}

#[allow(unsafe_code)]
mod system {
    use std::ffi::{c_int, c_ulong};

    use super::Window;

    unsafe extern "C" {
        fn ioctl(file: c_int, request: c_ulong, ...) -> c_int;
    }

    /// The window of standard output, if it is a terminal.
    pub fn window() -> Option<Window> {
        const STANDARD_OUTPUT: c_int = 1;
        const TIOCGWINSZ: c_ulong = 0x5413;
        let mut window = Window::default();
        // SAFETY: this request writes a window, whose layout is that of Linux, and nothing else.
        let done = unsafe { ioctl(STANDARD_OUTPUT, TIOCGWINSZ, &mut window as *mut Window) };
        (done == 0).then_some(window)
    }
}

/// The columns of the terminal: as the environment says, else as the system says, else 80.
pub fn columns() -> usize {
    let said = std::env::var("COLUMNS").ok().and_then(|said| said.trim().parse().ok());
    let seen = || system::window().map(|window| usize::from(window.columns));
    said.filter(|&columns| columns > 0)
        .or_else(|| seen().filter(|&columns| columns > 0))
        .unwrap_or(80)
}
