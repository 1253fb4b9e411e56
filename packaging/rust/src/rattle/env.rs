//! The arguments of the program.

/// What Rattle's trait of the system's environment is here: a name for imports.
pub trait Env {}

/// Why no argument is given.
pub enum FillError {
    /// There is no argument with this index.
    NotPresent,
    /// The argument has more bytes than there is room for.
    TooLong,
}
