//! A line on standard error while work takes long, for somebody who waits at a terminal.

use std::io::{self, Write};
use std::sync::mpsc::{self, RecvTimeoutError, Sender};
use std::thread::{self, JoinHandle};
use std::time::{Duration, Instant};

/// From what on work is long.
const LONG: Duration = Duration::from_secs(1);

/// While it lives, the line is shown as soon as work is long; then the line goes away.
pub struct Progress {
    work: Option<(Sender<()>, JoinHandle<()>)>,
}

impl Progress {
    /// Shows the line on standard error, if it is to be shown at all.
    pub fn begin(is_shown: bool, what: &str) -> Progress {
        if !is_shown {
            return Progress { work: None };
        }
        Progress::on(io::stderr(), LONG, what)
    }

    fn on(mut out: impl Write + Send + 'static, long: Duration, what: &str) -> Progress {
        let (sender, receiver) = mpsc::channel();
        let (begin, what) = (Instant::now(), what.to_string());
        let watch = move || {
            let mut is_shown = false;
            while receiver.recv_timeout(long) == Err(RecvTimeoutError::Timeout) {
                let _ = write!(out, "\rsoftlode: {what}, {} s", begin.elapsed().as_secs());
                let _ = out.flush();
                is_shown = true;
            }
            if is_shown {
                // To the beginning of the line, and all of it away.
                let _ = write!(out, "\r\x1b[K");
                let _ = out.flush();
            }
        };
        Progress { work: Some((sender, thread::spawn(watch))) }
    }
}

impl Drop for Progress {
    fn drop(&mut self) {
        if let Some((sender, thread)) = self.work.take() {
            drop(sender);
            let _ = thread.join();
        }
    }
}

#[cfg(test)]
mod tests {
    use std::sync::{Arc, Mutex};

    use super::*;

    #[derive(Clone, Default)]
    struct Shared(Arc<Mutex<Vec<u8>>>);

    impl Write for Shared {
        fn write(&mut self, bytes: &[u8]) -> io::Result<usize> {
            self.0.lock().unwrap().extend(bytes);
            Ok(bytes.len())
        }

        fn flush(&mut self) -> io::Result<()> {
            Ok(())
        }
    }

    fn shown(long: Duration, work: Duration) -> String {
        let out = Shared::default();
        let progress = Progress::on(out.clone(), long, "listing");
        thread::sleep(work);
        drop(progress);
        String::from_utf8(out.0.lock().unwrap().clone()).unwrap()
    }

    #[test]
    fn short_work_shows_nothing_and_long_work_a_line_that_goes_away() {
        assert_eq!(shown(Duration::from_secs(60), Duration::ZERO), "");
        let shown = shown(Duration::from_millis(5), Duration::from_millis(100));
        assert!(
            shown.starts_with("\rsoftlode: listing, 0 s") && shown.ends_with("\r\x1b[K"),
            "{shown:?}"
        );
    }
}
