//! What is being done, on standard error: each package when it is begun, and where a run takes long, how far it is.
use std::io::Write;
use std::sync::{Arc, Mutex};
use std::thread::sleep;
use std::time::{Duration, Instant};

const FIRST: Duration = Duration::from_millis(1500);
const AGAIN: Duration = Duration::from_secs(5);

/// A line on standard error, also where nobody reads it.
pub fn note(text: &str) {
    let _ = writeln!(std::io::stderr(), "desk: {text}");
}

#[derive(Clone)]
pub struct Progress {
    doing: Arc<Mutex<(String, Instant)>>,
}

impl Progress {
    pub fn start() -> Progress {
        let progress = Progress { doing: Arc::new(Mutex::new((String::new(), Instant::now()))) };
        let watched = progress.clone();
        std::thread::spawn(move || watched.watch());
        progress
    }

    /// Says what is begun. A thing that takes long is said again, with its seconds.
    pub fn begin(&self, what: String) {
        if let Ok(mut doing) = self.doing.lock() {
            *doing = (what, Instant::now());
        }
    }

    fn watch(&self) {
        sleep(FIRST);
        loop {
            let doing = self.doing.lock().map(|doing| (doing.0.clone(), doing.1.elapsed())).unwrap_or_default();
            if !doing.0.is_empty() {
                note(&format!("{} ({} s)", doing.0, doing.1.as_secs()));
            }
            sleep(AGAIN);
        }
    }
}
