use crate::ParseNetError;
use std::fmt;
use std::net::{IpAddr, Ipv4Addr, Ipv6Addr};
use std::str::FromStr;

/// A network: an address without host bits, and a prefix length.
///
/// Networks are ordered by family, IPv4 first, then by address, and then by length.
#[derive(Clone, Copy, Debug, PartialEq, Eq, PartialOrd, Ord, Hash)]
pub struct Net {
    addr: IpAddr,
    len: u8,
}

impl Net {
    /// The network of this length that contains the address, whose host bits are ignored. `None`
    /// if the length is above 32 for IPv4, or above 128 for IPv6.
    pub fn new(addr: impl Into<IpAddr>, len: u8) -> Option<Net> {
        let addr = match addr.into() {
            IpAddr::V4(addr) => {
                let host = 32_u32.checked_sub(len.into())?;
                let mask = u32::MAX.checked_shl(host).unwrap_or(0);
                Ipv4Addr::from(u32::from(addr) & mask).into()
            }
            IpAddr::V6(addr) => {
                let host = 128_u32.checked_sub(len.into())?;
                let mask = u128::MAX.checked_shl(host).unwrap_or(0);
                Ipv6Addr::from(u128::from(addr) & mask).into()
            }
        };
        Some(Net { addr, len })
    }

    /// Returns the first address.
    pub fn addr(&self) -> IpAddr {
        self.addr
    }

    /// Returns the prefix length: 0 to 32 for IPv4, 0 to 128 for IPv6.
    pub fn prefix_len(&self) -> u8 {
        self.len
    }

    /// Returns whether the network contains the address.
    pub fn contains(&self, addr: impl Into<IpAddr>) -> bool {
        Net::new(addr, self.len) == Some(*self)
    }
}

impl fmt::Display for Net {
    fn fmt(&self, f: &mut fmt::Formatter<'_>) -> fmt::Result {
        write!(f, "{}/{}", self.addr, self.len)
    }
}

impl From<IpAddr> for Net {
    /// The network of just this address.
    fn from(addr: IpAddr) -> Net {
        let len = if addr.is_ipv4() { 32 } else { 128 };
        Net { addr, len }
    }
}

impl FromStr for Net {
    type Err = ParseNetError;

    /// Reads an address, as `IpAddr` does, a slash and a length in decimal digits.
    fn from_str(text: &str) -> Result<Net, ParseNetError> {
        let (addr, len) = text.split_once('/').ok_or(ParseNetError)?;
        let addr: IpAddr = addr.parse().map_err(|_| ParseNetError)?;
        if len.starts_with('+') {
            return Err(ParseNetError);
        }
        let len = len.parse().map_err(|_| ParseNetError)?;
        Net::new(addr, len).ok_or(ParseNetError)
    }
}
