//! What scripts come to, so that nothing that is to be compared is left out.

use crate::pairs::LAST_STREAM;

/// How often each kind of packet was sent, each number answered, each state met, and each kind of
/// unit taken: of stream 0, of another and the end, without the mark and with it.
#[derive(Default)]
pub struct Met {
    pub sent: [u32; 7],
    pub received: [u32; 18],
    pub offered: [u32; 27],
    pub states: [u32; 6],
    pub taken: [u32; 6],
}

impl Met {
    pub fn add(&mut self, more: &Met) {
        add_each(&mut self.sent, &more.sent);
        add_each(&mut self.received, &more.received);
        add_each(&mut self.offered, &more.offered);
        add_each(&mut self.states, &more.states);
        add_each(&mut self.taken, &more.taken);
    }

    pub fn add_unit(&mut self, stream: u8, mark: u8) {
        let kind = match stream {
            0 => 0,
            1..=LAST_STREAM => 2,
            _ => 4,
        };
        self.taken[kind + usize::from(mark)] += 1;
    }

    /// Stops the program unless each of them was met.
    pub fn check(&self) {
        let [accepted, .., not_live, ended] = self.offered;
        for (what, counts) in [
            ("sent", &self.sent[..]),
            ("answered", &self.received[..9]),
            ("refused", &self.received[16..]),
            ("offered", &[accepted, not_live, ended]),
            ("states", &self.states),
            ("taken", &self.taken),
        ] {
            assert!(!counts.contains(&0), "not each was met: {what} {counts:?}");
        }
    }
}

fn add_each(sums: &mut [u32], more: &[u32]) {
    for (sum, more) in sums.iter_mut().zip(more) {
        *sum += more;
    }
}
