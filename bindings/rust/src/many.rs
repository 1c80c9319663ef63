use crate::error::no_memory;
use crate::raw::Addr6;
use crate::table::{check, halves};
use crate::Error;
use std::net::IpAddr;

/// Looks up many addresses, with one call for each family. Each result is one number, which
/// `shown` converts.
pub fn answers<T>(
    addrs: &[IpAddr],
    shown: impl Fn(u64) -> T,
    ask4: impl FnOnce(&[u32], &mut [u64]) -> u32,
    ask6: impl FnOnce(&[Addr6], &mut [u64]) -> u32,
) -> Result<Vec<T>, Error> {
    let count4 = addrs.iter().filter(|addr| addr.is_ipv4()).count();
    let (mut v4, mut v6) = (with_room(count4)?, with_room(addrs.len() - count4)?);
    for addr in addrs {
        match *addr {
            IpAddr::V4(addr) => v4.push(addr.into()),
            IpAddr::V6(addr) => {
                let (high, low) = halves(addr);
                v6.push(Addr6 { high, low });
            }
        }
    }
    let (mut hops4, mut hops6) = (with_room(v4.len())?, with_room(v6.len())?);
    hops4.resize(v4.len(), 0);
    hops6.resize(v6.len(), 0);
    check(ask4(&v4, &mut hops4))?;
    check(ask6(&v6, &mut hops6))?;
    let (mut hops4, mut hops6) = (hops4.into_iter(), hops6.into_iter());
    let hop = |addr: &IpAddr| match addr {
        IpAddr::V4(_) => hops4.next(),
        IpAddr::V6(_) => hops6.next(),
    };
    let mut found = with_room(addrs.len())?;
    found.extend(addrs.iter().filter_map(hop).map(shown));
    Ok(found)
}

/// An empty vector with room for so many items.
fn with_room<T>(count: usize) -> Result<Vec<T>, Error> {
    let mut items = Vec::new();
    items.try_reserve_exact(count).map_err(no_memory)?;
    Ok(items)
}
