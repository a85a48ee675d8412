//! The refusal numbers. A refusal carries the number alone.

#[derive(Clone, Copy, PartialEq, Eq, Debug)]
pub struct Refusal(pub u8);

/// Switch, slot, cell or filter length breaks the rules, or a mask names a
/// port the switch hasn't.
pub const BROKEN_SWITCH: Refusal = Refusal(1);
pub const NO_SUCH_PORT: Refusal = Refusal(2);
pub const PORT_DOWN: Refusal = Refusal(3);
pub const LENGTH: Refusal = Refusal(4);
/// Source zero, or its group bit set.
pub const SOURCE: Refusal = Refusal(5);
/// A host frame that looks tagged, or a frame tagged twice.
pub const TAGGED_ALREADY: Refusal = Refusal(6);
pub const NOT_TAGGED: Refusal = Refusal(7);
pub const HOP_COUNT_ZERO: Refusal = Refusal(8);
pub const OUTPUT_SHORT: Refusal = Refusal(9);
/// Tagging: a hop count or nonce that the header can't hold.
pub const HEADER_RANGE: Refusal = Refusal(10);

/// Record cut short, wrong length, unknown kind.
pub const RECORD: Refusal = Refusal(20);
/// Description empty, or first byte not 1.
pub const VERSION: Refusal = Refusal(21);
/// Number out of range, no such switch or port.
pub const RANGE: Refusal = Refusal(22);
pub const PORT_TAKEN: Refusal = Refusal(23);
/// Address zero, group, or twice.
pub const ADDRESS: Refusal = Refusal(24);
/// Too many switches, hosts or links, or too much input.
pub const TOO_MANY: Refusal = Refusal(25);
pub const ORDER: Refusal = Refusal(26);
pub const DESCRIPTION_OUTPUT_SHORT: Refusal = Refusal(27);
/// Bench or counters out of shape.
pub const OUT_OF_SHAPE: Refusal = Refusal(28);

pub const NO_SUCH_HOST: Refusal = Refusal(30);
pub const DESTINATION_ZERO: Refusal = Refusal(31);
pub const NO_SUCH_COPY: Refusal = Refusal(32);
/// No such link, or its state not 0 or 1.
pub const LINK_OR_STATE: Refusal = Refusal(33);
pub const EVENTS_USED_UP: Refusal = Refusal(34);
