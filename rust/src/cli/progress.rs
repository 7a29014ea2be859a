//! How far the work is, on standard error, once it has taken two seconds.

use std::sync::{Condvar, Mutex};
use std::time::{Duration, Instant};

const SILENT: Duration = Duration::from_secs(2);
const EVERY: Duration = Duration::from_secs(1);

struct State {
    done: usize,
    doing: String,
    over: bool,
}

/// Shared by the workers, who report, and the thread that tells.
pub struct Progress {
    total: usize,
    state: Mutex<State>,
    ended: Condvar,
}

impl Progress {
    pub fn new(total: usize) -> Self {
        let state = State { done: 0, doing: String::new(), over: false };
        Progress { total, state: Mutex::new(state), ended: Condvar::new() }
    }

    // A worker's panic ends the program; until then the state is plain data and fit to be used.
    fn state(&self) -> std::sync::MutexGuard<'_, State> {
        self.state.lock().unwrap_or_else(|poisoned| poisoned.into_inner())
    }

    /// What is being done now.
    pub fn doing(&self, what: String) {
        self.state().doing = what;
    }

    /// One more picture is done.
    pub fn one_done(&self) {
        self.state().done += 1;
    }

    /// All is over: the telling thread ends.
    pub fn end(&self) {
        self.state().over = true;
        self.ended.notify_all();
    }

    fn line(&self, state: &State, seconds: u64) -> String {
        format!("tinladle: {seconds} s: {} of {} done; {}", state.done, self.total, state.doing)
    }

    /// Runs until the end, telling a line now and then.
    pub fn tell(&self, say: impl FnMut(String)) {
        self.tell_after(SILENT, EVERY, say);
    }

    fn tell_after(&self, silent: Duration, every: Duration, mut say: impl FnMut(String)) {
        let began = Instant::now();
        let mut next = silent;
        let mut state = self.state();
        while !state.over {
            let left = next.saturating_sub(began.elapsed());
            if left.is_zero() {
                say(self.line(&state, began.elapsed().as_secs()));
                next += every;
                continue;
            }
            state = match self.ended.wait_timeout(state, left) {
                Ok((state, _)) => state,
                Err(poisoned) => poisoned.into_inner().0,
            };
        }
    }
}

#[cfg(test)]
mod tests {
    use super::*;
    use std::sync::mpsc;
    use std::thread;

    /// Far longer than any machine keeps a thread waiting.
    const PATIENCE: Duration = Duration::from_secs(60);

    /// Work that is over once this many lines are told, or none comes within `wait`; those lines.
    fn told(silent: Duration, wanted: usize, wait: Duration) -> Vec<String> {
        let progress = Progress::new(3);
        progress.one_done();
        progress.doing("filtering a.pic".into());
        let (send, receive) = mpsc::channel();
        thread::scope(|scope| {
            scope.spawn(|| progress.tell_after(silent, Duration::from_millis(1), |line| send.send(line).unwrap()));
            let lines: Vec<String> = (0..wanted).map_while(|_| receive.recv_timeout(wait).ok()).collect();
            progress.end();
            lines
        })
    }

    #[test]
    fn short_work_is_silent() {
        assert_eq!(told(Duration::from_secs(3600), 1, Duration::from_millis(50)), Vec::<String>::new());
    }

    #[test]
    fn long_work_tells_how_far_it_is() {
        let (began, silent) = (Instant::now(), Duration::from_millis(20));
        let lines = told(silent, 3, PATIENCE);
        assert!(began.elapsed() >= silent);
        assert_eq!(lines.len(), 3, "one line after the other");
        for line in lines {
            // How many seconds is the machine's affair.
            let (seconds, rest) = line.strip_prefix("tinladle: ").unwrap().split_once(" s: ").unwrap();
            assert!(seconds.parse::<u64>().is_ok(), "{line}");
            assert_eq!(rest, "1 of 3 done; filtering a.pic");
        }
    }
}
