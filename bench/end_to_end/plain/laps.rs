//! How long each phase takes.
use std::time::Instant;

pub struct Laps {
    begun: Instant,
    /// Each phase, and its nanoseconds.
    ended: Vec<(&'static str, u128)>,
}

impl Laps {
    pub fn new() -> Laps {
        Laps { begun: Instant::now(), ended: Vec::new() }
    }

    /// Ends a phase, and begins the next.
    pub fn end(&mut self, phase: &'static str) {
        let now = Instant::now();
        self.ended.push((phase, now.duration_since(self.begun).as_nanos()));
        self.begun = now;
    }

    pub fn tell(&self) {
        for (phase, nanoseconds) in &self.ended {
            println!("{phase} {nanoseconds}");
        }
    }
}
