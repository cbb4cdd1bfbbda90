//! Feeds for the swap rule, each always the same.

use second::random::Random;

pub struct Feed {
    pub name: &'static str,
    seed: u64,
    /// Every second event, or so, is an o, an a or a c; the others are any bytes.
    busy: bool,
    /// How much of the feed is past, in hundredths, before a withdrawal may come inside an offer and end the rule.
    guarded: usize,
}

pub const BUSY: Feed = Feed {
    name: "half of them o, a or c, withdrawn at the end",
    seed: 20240,
    busy: true,
    guarded: 99,
};
pub const ANY: Feed = Feed {
    name: "any bytes, soon withdrawn",
    seed: 20241,
    busy: false,
    guarded: 0,
};
pub const ALIVE: Feed = Feed {
    name: "any bytes, never withdrawn",
    seed: 20242,
    busy: false,
    guarded: 100,
};
/// For growth: nothing but the number of events past can make a difference.
pub const STEADY: Feed = Feed {
    name: "half of them o, a or c, never withdrawn",
    seed: 20243,
    busy: true,
    guarded: 100,
};

impl Feed {
    pub fn events(&self, count: usize) -> Vec<u8> {
        let mut random = Random::seeded(self.seed);
        let mut offered = false;
        let mut accepted = false;
        let mut events = Vec::with_capacity(count);
        for past in 0..count {
            let number = random.number();
            let mut event = if self.busy && number & 1 == 1 {
                b"oac"[(number >> 8) as usize % 3]
            } else {
                (number >> 32) as u8
            };
            if offered && event == b'w' && past * 100 < count * self.guarded {
                event = b'x';
            }
            match event {
                b'o' => offered = true,
                b'a' => accepted = offered,
                b'c' if accepted => (offered, accepted) = (false, false),
                _ => {}
            }
            events.push(event);
        }
        events
    }
}
