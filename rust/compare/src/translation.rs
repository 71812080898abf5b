//! What is translated on the way from one end to the other.

use kit::Pair;

/// Of one side.
#[derive(Clone, Copy, Debug, PartialEq, Eq)]
pub struct Rewritten {
    pub address: bool,
    pub port: bool,
}

impl Rewritten {
    pub const NOTHING: Rewritten = Rewritten {
        address: false,
        port: false,
    };
    pub const ADDRESS: Rewritten = Rewritten {
        address: true,
        port: false,
    };
    pub const PORT: Rewritten = Rewritten {
        address: false,
        port: true,
    };
    pub const BOTH: Rewritten = Rewritten {
        address: true,
        port: true,
    };
}

/// Of a segment: its sender's side and its receiver's.
#[derive(Clone, Copy, Debug, PartialEq, Eq)]
pub struct Translation {
    pub source: Rewritten,
    pub destination: Rewritten,
}

impl Translation {
    pub const NOTHING: Translation = Translation {
        source: Rewritten::NOTHING,
        destination: Rewritten::NOTHING,
    };

    /// On the way between two ends that hold the connection so.
    pub fn between(sender: &Pair, receiver: &Pair) -> Translation {
        Translation {
            source: Rewritten {
                address: sender.local != receiver.remote,
                port: sender.local_port != receiver.remote_port,
            },
            destination: Rewritten {
                address: sender.remote != receiver.local,
                port: sender.remote_port != receiver.local_port,
            },
        }
    }
}
