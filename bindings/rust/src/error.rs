use std::collections::TryReserveError;
use std::error;
use std::fmt;

/// Why a call of a table or a follower failed.
#[derive(Clone, Copy, Debug, PartialEq, Eq, Hash)]
#[non_exhaustive]
pub enum Error {
    /// An allocation failed, an index would be too large, or too many objects share an index.
    NoMemory,
    /// The network has routes by eight other hops.
    Full,
    /// The text is not a reply line of `routes lead`.
    NotALine,
    /// The follower had a fault before.
    Failed,
}

impl fmt::Display for Error {
    fn fmt(&self, f: &mut fmt::Formatter<'_>) -> fmt::Result {
        f.write_str(match self {
            Error::NoMemory => "there is no memory",
            Error::Full => "the network has routes by eight other hops",
            Error::NotALine => "this is no reply line",
            Error::Failed => "the follower had a fault before",
        })
    }
}

impl error::Error for Error {}

/// The error of a call whose result has no room.
pub(crate) fn no_memory(_: TryReserveError) -> Error {
    Error::NoMemory
}

/// A text is not a network, such as `10.0.0.0/8` or `2001:db8::/32`.
#[derive(Clone, Copy, Debug, PartialEq, Eq)]
pub struct ParseNetError;

impl fmt::Display for ParseNetError {
    fn fmt(&self, f: &mut fmt::Formatter<'_>) -> fmt::Result {
        f.write_str("not a network of the form 10.0.0.0/8")
    }
}

impl error::Error for ParseNetError {}

/// A text is not a hop: a number below 2^32 without leading zeros, or `drop`.
#[derive(Clone, Copy, Debug, PartialEq, Eq)]
pub struct ParseHopError;

impl fmt::Display for ParseHopError {
    fn fmt(&self, f: &mut fmt::Formatter<'_>) -> fmt::Result {
        f.write_str("not a hop, which is a number or drop")
    }
}

impl error::Error for ParseHopError {}

/// A text is not a route, such as `10.0.0.0/8 1 100`.
#[derive(Clone, Copy, Debug, PartialEq, Eq)]
pub struct ParseRouteError;

impl fmt::Display for ParseRouteError {
    fn fmt(&self, f: &mut fmt::Formatter<'_>) -> fmt::Result {
        f.write_str("not a route of the form 10.0.0.0/8 1 100")
    }
}

impl error::Error for ParseRouteError {}
