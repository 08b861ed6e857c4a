//! A call as a record of 32 bytes, as FORMAT.md has it.

/// How many bytes a record has.
pub const LENGTH: usize = 32;

/// The operations, by their numbers in FORMAT.md.
pub mod op {
    pub const ADD: u8 = 0;
    pub const RESET: u8 = 1;
    pub const CANCEL: u8 = 2;
    pub const DRAIN: u8 = 3;
    pub const ADVANCE: u8 = 4;
    pub const TURN: u8 = 5;
    pub const NEXT_WAKE: u8 = 6;
    pub const POLL: u8 = 7;
    pub const CLOSE: u8 = 8;
    pub const TICK: u8 = 9;
    pub const RESTART: u8 = 10;
    pub const SET_WORD: u8 = 12;
    pub const PUSH: u8 = 16;
    pub const REMOVE: u8 = 17;
    pub const POP: u8 = 18;
    pub const PEEK: u8 = 19;
    pub const TEST: u8 = 20;
    pub const FRESH: u8 = 24;
    pub const READING: u8 = 25;
    pub const PAUSE: u8 = 26;
    pub const RESUME: u8 = 27;
    pub const CLOCK_ADVANCE: u8 = 28;
    pub const BEGIN: u8 = 31;
}

/// A handle: a place and its use number.
#[derive(Clone, Copy, Debug, PartialEq, Eq)]
pub struct Handle {
    pub place: u16,
    pub uses: u32,
}

/// What to do about a tick that comes late.
#[derive(Clone, Copy, Debug, PartialEq, Eq)]
pub enum Policy {
    Burst,
    Delay,
    Skip,
}

/// The three policies, by their numbers.
pub const POLICIES: [Policy; 3] = [Policy::Burst, Policy::Delay, Policy::Skip];

/// A call, field by field; a field that the operation does not use is 0.
#[derive(Clone, Copy, Debug, Default, PartialEq, Eq)]
pub struct Record {
    pub op: u8,
    pub policy: u8,
    pub place: u16,
    pub uses: u32,
    pub a: u64,
    pub b: u64,
    /// The reading at which a set is asked how long is left, after the call.
    pub c: u64,
}

/// The big-endian number that `bytes` has from `start` on.
fn number(bytes: &[u8], start: usize, length: usize) -> u64 {
    bytes[start..start + length]
        .iter()
        .fold(0, |sum, byte| sum << 8 | u64::from(*byte))
}

impl Record {
    /// The record that 32 bytes are.
    pub fn decode(bytes: &[u8]) -> Record {
        Record {
            op: bytes[0],
            policy: bytes[1],
            place: number(bytes, 2, 2) as u16,
            uses: number(bytes, 4, 4) as u32,
            a: number(bytes, 8, 8),
            b: number(bytes, 16, 8),
            c: number(bytes, 24, 8),
        }
    }

    /// The 32 bytes of a record.
    pub fn encode(&self) -> [u8; LENGTH] {
        let mut bytes = [0; LENGTH];
        bytes[0] = self.op;
        bytes[1] = self.policy;
        bytes[2..4].copy_from_slice(&self.place.to_be_bytes());
        bytes[4..8].copy_from_slice(&self.uses.to_be_bytes());
        bytes[8..16].copy_from_slice(&self.a.to_be_bytes());
        bytes[16..24].copy_from_slice(&self.b.to_be_bytes());
        bytes[24..32].copy_from_slice(&self.c.to_be_bytes());
        bytes
    }

    /// Whether the call is on a set.
    pub fn is_on_set(&self) -> bool {
        (op::ADD..=op::SET_WORD).contains(&self.op)
    }

    /// The handle that the record names.
    pub fn handle(&self) -> Handle {
        Handle {
            place: self.place,
            uses: self.uses,
        }
    }

    /// The policy that the record names. The driver writes 0 to 2 only; FORMAT.md has no others.
    pub fn policy(&self) -> Policy {
        POLICIES[usize::from(self.policy).min(2)]
    }

    /// A call with no fields.
    pub fn plain(op: u8) -> Record {
        Record {
            op,
            ..Record::default()
        }
    }

    /// A call with the field a: a deadline, a reading, a raw counter or a duration.
    pub fn timed(op: u8, a: u64) -> Record {
        Record {
            op,
            a,
            ..Record::default()
        }
    }

    /// A call on a handle, with the field a: a deadline or a word, or 0.
    pub fn on(op: u8, handle: Handle, a: u64) -> Record {
        Record {
            op,
            place: handle.place,
            uses: handle.uses,
            a,
            ..Record::default()
        }
    }

    /// A tick of a handle.
    pub fn tick(handle: Handle, policy: Policy, period: u64, reading: u64) -> Record {
        Record {
            policy: policy as u8,
            b: reading,
            ..Record::on(op::TICK, handle, period)
        }
    }

    /// An interval reset of a handle.
    pub fn restart(handle: Handle, period: u64, reading: u64) -> Record {
        Record {
            b: reading,
            ..Record::on(op::RESTART, handle, period)
        }
    }

    /// The removal of a slot of the heap alone.
    pub fn remove(slot: u16) -> Record {
        Record {
            place: slot,
            ..Record::plain(op::REMOVE)
        }
    }

    /// The call in words, and where a set is asked how long is left.
    pub fn words(&self) -> String {
        if self.is_on_set() {
            return format!("{}; left at {}", self.call_in_words(), self.c);
        }
        self.call_in_words()
    }

    /// The call in words.
    fn call_in_words(&self) -> String {
        let (a, b) = (self.a, self.b);
        let handle = format!("{}:{}", self.place, self.uses);
        match self.op {
            op::ADD => format!("add at {a}"),
            op::RESET => format!("reset of {handle} to {a}"),
            op::CANCEL => format!("cancel of {handle}"),
            op::DRAIN => "drain".into(),
            op::ADVANCE => format!("advance to {a}"),
            op::TURN => format!("turn at {a}"),
            op::NEXT_WAKE => "next wake".into(),
            op::POLL => format!("poll of {handle}"),
            op::CLOSE => "close".into(),
            op::TICK => {
                let policy = self.policy();
                format!("tick of {handle}, {policy:?}, period {a}, reading {b}")
            }
            op::RESTART => format!("interval reset of {handle}, period {a}, reading {b}"),
            op::SET_WORD => format!("word of {handle} set to {a}"),
            op::PUSH => format!("heap: push at {a}"),
            op::REMOVE => format!("heap: remove of slot {}", self.place),
            op::POP => "heap: pop".into(),
            op::PEEK => "heap: peek".into(),
            op::TEST => "heap: test".into(),
            op::FRESH => format!("clock: fresh at raw {a}"),
            op::READING => format!("clock: reading at raw {a}"),
            op::PAUSE => format!("clock: pause at raw {a}"),
            op::RESUME => format!("clock: resume at raw {a}"),
            op::CLOCK_ADVANCE => format!("clock: advance by {a}"),
            op::BEGIN => "begin".into(),
            other => format!("operation {other}, which there is not"),
        }
    }
}

/// The records that a file is made of; what is left of a broken one at its end is ignored.
pub fn decode_all(bytes: &[u8]) -> Vec<Record> {
    bytes.chunks_exact(LENGTH).map(Record::decode).collect()
}
