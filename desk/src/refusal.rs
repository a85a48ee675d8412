//! The refusal numbers' words, as document 01 has them.

/// No such copy: the number by which the bench says that a place is beyond the list.
pub const NO_SUCH_COPY: u8 = 32;

/// The input is too long, or has too many records of a kind.
pub const TOO_MANY: u8 = 25;

pub fn words(number: u8) -> &'static str {
    match number {
        20 => "record cut short, wrong length, unknown kind",
        21 => "description empty, or first byte not 1",
        22 => "number out of range, no such switch or port",
        23 => "port already taken",
        24 => "address zero, group, or twice",
        25 => "more than 16 switches, 32 hosts or 64 links; input over 60,000 bytes",
        26 => "out of order",
        27 => "description output too short",
        28 => "bench or counters out of shape",
        30 => "no such host",
        31 => "destination zero",
        32 => "no such copy",
        33 => "no such link, or its state not 0 or 1",
        34 => "1,000,000 events already accepted",
        _ => "a number that the bench program never prints",
    }
}

/// What it is in a stand file that is refused with this number.
pub fn hint(number: u8) -> &'static str {
    match number {
        22 => "a head has 1 to 8 ports, numbered from 0, and a hop limit of at most 62",
        23 => "another gauge or cable is on one of these ports",
        24 => "each gauge has an address of its own; its first byte is even, and it isn't zero",
        26 => {
            "the desk sorts by port, so this one shares its port with another, or with itself"
        }
        _ => "this line is one too many",
    }
}
