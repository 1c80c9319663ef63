use crate::{Net, ParseHopError, ParseRouteError};
use std::fmt;
use std::str::FromStr;

/// The preference that `routes lead` gives a route without one.
pub const PREFERENCE: u16 = 100;

/// The next hop of a route. Among equal preferences the smallest number is best, and `Drop` is
/// last.
#[derive(Clone, Copy, Debug, PartialEq, Eq, PartialOrd, Ord, Hash)]
pub enum Hop {
    /// A number that the caller chooses.
    Number(u32),
    /// A null route: its addresses have no hop.
    Drop,
}

impl fmt::Display for Hop {
    fn fmt(&self, f: &mut fmt::Formatter<'_>) -> fmt::Result {
        match self {
            Hop::Number(number) => number.fmt(f),
            Hop::Drop => "drop".fmt(f),
        }
    }
}

impl From<u32> for Hop {
    fn from(number: u32) -> Hop {
        Hop::Number(number)
    }
}

impl FromStr for Hop {
    type Err = ParseHopError;

    /// Reads just the texts that `to_string` returns.
    fn from_str(text: &str) -> Result<Hop, ParseHopError> {
        let hop = match text {
            "drop" => Hop::Drop,
            _ => Hop::Number(text.parse().map_err(|_| ParseHopError)?),
        };
        printed(hop, text).ok_or(ParseHopError)
    }
}

/// The best route of a network.
#[derive(Clone, Copy, Debug, PartialEq, Eq, Hash)]
pub struct Route {
    /// The network.
    pub net: Net,
    /// The next hop.
    pub hop: Hop,
    /// The preference: the greater, the better.
    pub preference: u16,
}

impl fmt::Display for Route {
    fn fmt(&self, f: &mut fmt::Formatter<'_>) -> fmt::Result {
        write!(f, "{} {} {}", self.net, self.hop, self.preference)
    }
}

impl FromStr for Route {
    type Err = ParseRouteError;

    /// Reads just the texts that `to_string` returns.
    fn from_str(text: &str) -> Result<Route, ParseRouteError> {
        let read = || {
            let (net, rest) = text.split_once(' ')?;
            let (hop, preference) = rest.split_once(' ')?;
            let route = Route {
                net: net.parse().ok()?,
                hop: hop.parse().ok()?,
                preference: preference.parse().ok()?,
            };
            printed(route, text)
        };
        read().ok_or(ParseRouteError)
    }
}

/// The value, if this is the text that it is printed as.
fn printed<T: ToString>(value: T, text: &str) -> Option<T> {
    (value.to_string() == text).then_some(value)
}

/// The hop before and after a change, for the addresses of the network that no longer stored
/// network contains. `None` is no hop: no route, or a null route.
#[derive(Clone, Copy, Debug, PartialEq, Eq, Hash)]
pub struct Change {
    /// The hop before.
    pub before: Option<u32>,
    /// The hop after.
    pub after: Option<u32>,
}

/// The number of stored networks of each family.
#[derive(Clone, Copy, Debug, PartialEq, Eq, Hash)]
pub struct Count {
    /// Of IPv4.
    pub ipv4: usize,
    /// Of IPv6.
    pub ipv6: usize,
}

/// A block of a flat list, and the one hop that all its addresses have.
#[derive(Clone, Copy, Debug, PartialEq, Eq, Hash)]
pub struct Piece {
    /// The block.
    pub net: Net,
    /// The hop.
    pub hop: u32,
}

impl fmt::Display for Piece {
    fn fmt(&self, f: &mut fmt::Formatter<'_>) -> fmt::Result {
        write!(f, "{} {}", self.net, self.hop)
    }
}
