//! The two forms of the calls that take a packet.

/// How many bytes may be left over behind the data of a packet's last block.
#[derive(Clone, Copy, Debug, Default, PartialEq, Eq, Hash)]
pub enum Form {
    /// One or none: many films pad a packet to an even length. Players use it.
    #[default]
    Default,
    /// None: for those who make films and want every byte accounted for.
    Strict,
}

impl Form {
    /// The form as the library's step takes it: C's `MVE_DEFAULT` and `MVE_STRICT`.
    pub const fn number(self) -> usize {
        match self {
            Form::Default => 0,
            Form::Strict => 1,
        }
    }
}
