//! The twelve operations, their names and kinds.

/// A set of operations: bit o stands for operation o.
pub type Operations = u16;

/// The names by number.
pub const NAMES: [&str; 12] =
    ["read", "write", "append", "update", "execute", "become", "stat", "lock", "unlock", "signal", "send", "receive"];

pub const BECOME: usize = 5;

pub const ALL: Operations = 0x0fff;
pub const NONE: Operations = 0;

/// Operations by which the subject gets information: read, update, stat, receive.
pub const READ_LIKE: Operations = 1 << 0 | 1 << 3 | 1 << 6 | 1 << 11;

/// Operations by which the target gets information: write, append, update, signal, send.
pub const WRITE_LIKE: Operations = 1 << 1 | 1 << 2 | 1 << 3 | 1 << 9 | 1 << 10;

pub const EXECUTE: Operations = 1 << 4;

pub const TRANSITION: Operations = 1 << BECOME;

/// The number of the operation of this name.
pub fn by_name(name: &[u8]) -> Option<usize> {
    NAMES.iter().position(|known| known.as_bytes() == name)
}

/// The lowest-numbered operation of a set.
pub fn lowest(operations: Operations) -> Option<usize> {
    (operations != NONE).then(|| operations.trailing_zeros() as usize)
}
