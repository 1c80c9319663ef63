use crate::error::no_memory;
use crate::lists::{pieces, routes};
use crate::many::answers;
use crate::{raw, Change, Count, Error, Hop, Net, Piece, Route};
use std::cell::UnsafeCell;
use std::fmt;
use std::net::{IpAddr, Ipv4Addr, Ipv6Addr};

/// A route table for IPv4 and IPv6.
///
/// A network has up to eight routes, each with another hop. The best route has the greatest
/// preference, and among equals the smallest hop. The hop of an address is that of the best route
/// of the longest stored network that contains the address.
///
/// A table is `Send`, so it may move to another thread. It is not `Sync`, since each call,
/// lookups included, needs the table for itself:
///
/// ```compile_fail,E0277
/// fn shared<T: Sync>() {}
/// shared::<jolmidda::Table>();
/// ```
pub struct Table {
    /// Open until it is dropped, and boxed, since an open table may not move. The cell keeps
    /// threads from sharing a `Table`, so that no two calls overlap.
    pub(crate) raw: Box<UnsafeCell<raw::Table>>,
}

// SAFETY: the library lets any thread make a call after the previous call has returned and the
// threads have synchronized. A thread that has a table from another thread was given it by that
// thread.
unsafe impl Send for Table {}

impl Table {
    /// Makes a table without routes.
    ///
    /// # Errors
    /// `NoMemory`.
    pub fn new() -> Result<Table, Error> {
        let raw = boxed(raw::Table::CLOSED)?;
        let table = Table { raw };
        // SAFETY: the table is closed, and ours alone.
        check(unsafe { raw::routes_open(table.raw.get()) })?;
        Ok(table)
    }

    /// Returns the best route of the longest stored network that contains the address.
    pub fn get(&self, addr: impl Into<IpAddr>) -> Option<Route> {
        let addr = addr.into();
        let mut route = raw::Route::default();
        // SAFETY: the table is as `raw` says, and `route` is ours.
        let code = unsafe {
            match addr {
                IpAddr::V4(addr) => raw::routes_get4(self.raw.get(), addr.into(), &mut route),
                IpAddr::V6(addr) => {
                    let (high, low) = halves(addr);
                    raw::routes_get6(self.raw.get(), high, low, &mut route)
                }
            }
        };
        found(code).then(|| route.into())
    }

    /// Returns the hop of the route that `get` finds for each address, or `None` if it finds
    /// none.
    ///
    /// It calls the library at most twice.
    ///
    /// # Errors
    /// `NoMemory`.
    pub fn hops(&self, addrs: &[IpAddr]) -> Result<Vec<Option<Hop>>, Error> {
        let table = self.raw.get();
        // SAFETY: the table is as `raw` says, and the slices are ours.
        answers(
            addrs,
            |found| (found != raw::NO_MATCH).then(|| hop(found)),
            |addrs, hops| unsafe {
                let (from, to) = (addrs.as_ptr(), hops.as_mut_ptr());
                raw::routes_get4_many(table, from, addrs.len(), to, hops.len())
            },
            |addrs, hops| unsafe {
                let (from, to) = (addrs.as_ptr(), hops.as_mut_ptr());
                raw::routes_get6_many(table, from, addrs.len(), to, hops.len())
            },
        )
    }

    /// Returns the number of stored networks of each family.
    pub fn count(&self) -> Count {
        let (mut ipv4, mut ipv6) = (0, 0);
        // SAFETY: the table is as `raw` says, and the numbers are ours.
        found(unsafe { raw::routes_count(self.raw.get(), &mut ipv4, &mut ipv6) });
        Count { ipv4, ipv6 }
    }

    /// Adds a route. If the network has this hop already, its preference changes.
    ///
    /// # Errors
    /// `Full` if the network has routes by eight other hops, and `NoMemory`. The table is then
    /// unchanged.
    pub fn add(&mut self, net: Net, hop: Hop, preference: u16) -> Result<Change, Error> {
        let (len, hop) = (net.prefix_len(), raw_hop(hop));
        let mut change = raw::Change::default();
        let table = self.raw.get_mut();
        // SAFETY: the table is as `raw` says, and `change` is ours.
        check(unsafe {
            match net.addr() {
                IpAddr::V4(addr) => {
                    raw::routes_add4(table, addr.into(), len, hop, preference, &mut change)
                }
                IpAddr::V6(addr) => {
                    let (high, low) = halves(addr);
                    raw::routes_add6(table, high, low, len, hop, preference, &mut change)
                }
            }
        })?;
        Ok(change.into())
    }

    /// Removes the network's route by this hop. Returns `None` if there is none.
    pub fn del(&mut self, net: Net, hop: Hop) -> Option<Change> {
        let (len, hop) = (net.prefix_len(), raw_hop(hop));
        let mut change = raw::Change::default();
        let table = self.raw.get_mut();
        // SAFETY: the table is as `raw` says, and `change` is ours.
        let code = unsafe {
            match net.addr() {
                IpAddr::V4(addr) => raw::routes_del4(table, addr.into(), len, hop, &mut change),
                IpAddr::V6(addr) => {
                    let (high, low) = halves(addr);
                    raw::routes_del6(table, high, low, len, hop, &mut change)
                }
            }
        };
        found(code).then(|| change.into())
    }

    /// Returns the fewest one-hop blocks that cover all addresses with a hop, in ascending order.
    ///
    /// # Errors
    /// `NoMemory`.
    pub fn flat(&self) -> Result<Vec<Piece>, Error> {
        // SAFETY: the table is as `raw` says.
        check(unsafe { raw::routes_flat(self.raw.get()) })?;
        // SAFETY: the table is as `raw` says, and `part` is a slice.
        pieces(|from, part| unsafe {
            raw::routes_read_pieces(self.raw.get(), from, part.as_mut_ptr(), part.len())
        })
    }

    /// Returns the best routes of the stored networks inside this one, itself included, in
    /// ascending order.
    ///
    /// # Errors
    /// `NoMemory`, as in all calls that list routes.
    pub fn list(&self, net: Net) -> Result<Vec<Route>, Error> {
        self.listed(net, raw::routes_list4, raw::routes_list6)
    }

    /// Returns the best routes of the stored networks that contain this one, itself included,
    /// shortest first.
    ///
    /// # Errors
    /// `NoMemory`.
    pub fn cover(&self, net: Net) -> Result<Vec<Route>, Error> {
        self.listed(net, raw::routes_cover4, raw::routes_cover6)
    }

    /// Returns all routes of exactly this network, best first.
    ///
    /// # Errors
    /// `NoMemory`.
    pub fn all(&self, net: Net) -> Result<Vec<Route>, Error> {
        self.listed(net, raw::routes_all4, raw::routes_all6)
    }

    /// Returns the maximal blocks of the addresses that the network governs, each with their hop,
    /// or `Drop` for none.
    ///
    /// A network governs those of its addresses that no stored network strictly inside it
    /// contains. If a change of the network returned two different hops, these are the addresses
    /// whose hop changed.
    ///
    /// # Errors
    /// `NoMemory`.
    pub fn governed(&self, net: Net) -> Result<Vec<Route>, Error> {
        self.listed(net, raw::routes_governed4, raw::routes_governed6)
    }

    /// Returns at most `limit` best routes of the family's stored networks from this one on, in
    /// ascending order.
    ///
    /// # Errors
    /// `NoMemory`.
    pub fn page_from(&self, net: Net, limit: usize) -> Result<Vec<Route>, Error> {
        self.page(net, limit, raw::routes_from4, raw::routes_from6)
    }

    /// Returns at most `limit` best routes of the family's stored networks after this one, which
    /// need not be stored. With the last network of a page it returns the next page.
    ///
    /// # Errors
    /// `NoMemory`.
    pub fn page_after(&self, net: Net, limit: usize) -> Result<Vec<Route>, Error> {
        self.page(net, limit, raw::routes_after4, raw::routes_after6)
    }

    /// Returns the blocks of `flat` with this hop, in ascending order.
    ///
    /// # Errors
    /// `NoMemory`.
    pub fn own(&self, hop: u32) -> Result<Vec<Route>, Error> {
        // SAFETY: the table is as `raw` says.
        check(unsafe { raw::routes_own(self.raw.get(), hop) })?;
        self.read()
    }

    /// Returns the routes of a least table: the fewest with the same hop at each address.
    ///
    /// # Errors
    /// `NoMemory`.
    pub fn least(&self) -> Result<Vec<Route>, Error> {
        // SAFETY: the table is as `raw` says.
        check(unsafe { raw::routes_least(self.raw.get()) })?;
        self.read()
    }

    fn listed(&self, net: Net, list4: List4, list6: List6) -> Result<Vec<Route>, Error> {
        let (table, len) = (self.raw.get(), net.prefix_len());
        // SAFETY: the table is as `raw` says.
        check(unsafe {
            match net.addr() {
                IpAddr::V4(addr) => list4(table, addr.into(), len),
                IpAddr::V6(addr) => {
                    let (high, low) = halves(addr);
                    list6(table, high, low, len)
                }
            }
        })?;
        self.read()
    }

    fn page(
        &self,
        net: Net,
        limit: usize,
        page4: Page4,
        page6: Page6,
    ) -> Result<Vec<Route>, Error> {
        let (table, len) = (self.raw.get(), net.prefix_len());
        // SAFETY: the table is as `raw` says.
        check(unsafe {
            match net.addr() {
                IpAddr::V4(addr) => page4(table, addr.into(), len, limit),
                IpAddr::V6(addr) => {
                    let (high, low) = halves(addr);
                    page6(table, high, low, len, limit)
                }
            }
        })?;
        self.read()
    }

    /// The list of routes that was made last.
    fn read(&self) -> Result<Vec<Route>, Error> {
        // SAFETY: the table is as `raw` says, and `part` is a slice.
        routes(|from, part| unsafe {
            raw::routes_read(self.raw.get(), from, part.as_mut_ptr(), part.len())
        })
    }

    /// Returns the reply of `routes lead` to a line of its input, given without its line end.
    /// Each line of the reply has its line end.
    ///
    /// # Errors
    /// `NoMemory` if an allocation for the reply fails. The line was carried out even so, and the
    /// table is the one after it.
    pub fn line(&mut self, line: impl AsRef<[u8]>) -> Result<String, Error> {
        let line = line.as_ref();
        // SAFETY: the table is as `raw` says, and `line` is a slice.
        check(unsafe { raw::routes_line(self.raw.get_mut(), line.as_ptr(), line.len()) })?;
        let mut reply = String::new();
        let mut out = [0; 4096];
        loop {
            // SAFETY: the table is as `raw` says, and `out` is ours.
            let count = unsafe {
                let table = self.raw.get_mut();
                raw::routes_reply(table, reply.len(), out.as_mut_ptr(), out.len())
            };
            if count == 0 {
                return Ok(reply);
            }
            reply.try_reserve(count).map_err(no_memory)?;
            reply.extend(out[..count].iter().map(|&byte| char::from(byte)));
        }
    }
}

impl Drop for Table {
    fn drop(&mut self) {
        // SAFETY: the table is as `raw` says, and is not used again.
        unsafe { raw::routes_close(self.raw.get_mut()) }
    }
}

impl fmt::Debug for Table {
    fn fmt(&self, f: &mut fmt::Formatter<'_>) -> fmt::Result {
        f.debug_struct("Table").finish_non_exhaustive()
    }
}

type List4 = unsafe extern "C" fn(*mut raw::Table, u32, u8) -> u32;
type List6 = unsafe extern "C" fn(*mut raw::Table, u64, u64, u8) -> u32;
type Page4 = unsafe extern "C" fn(*mut raw::Table, u32, u8, usize) -> u32;
type Page6 = unsafe extern "C" fn(*mut raw::Table, u64, u64, u8, usize) -> u32;

impl From<raw::Route> for Route {
    fn from(route: raw::Route) -> Route {
        Route {
            net: net(route.family, route.high, route.low, route.len),
            hop: hop(route.hop),
            preference: route.pref,
        }
    }
}

impl From<raw::Change> for Change {
    fn from(change: raw::Change) -> Change {
        Change {
            before: number(change.before),
            after: number(change.after),
        }
    }
}

/// Allocates a handle. `Box::new` would end the program without memory.
pub(crate) fn boxed<T>(handle: T) -> Result<Box<UnsafeCell<T>>, Error> {
    let mut one = Vec::new();
    one.try_reserve_exact(1).map_err(no_memory)?;
    one.push(UnsafeCell::new(handle));
    let slice = Box::into_raw(one.into_boxed_slice());
    // SAFETY: a boxed slice of one item has the layout of the boxed item.
    Ok(unsafe { Box::from_raw(slice.cast()) })
}

/// Converts the result of a call on an open handle, and on a network with a valid length.
pub(crate) fn check(code: u32) -> Result<(), Error> {
    match code {
        raw::OK => Ok(()),
        raw::NO_MEMORY => Err(Error::NoMemory),
        raw::FULL => Err(Error::Full),
        raw::NOT_A_LINE => Err(Error::NotALine),
        raw::FAILED => Err(Error::Failed),
        _ => panic!("the library answered {code}, which its header does not allow here"),
    }
}

/// Whether the value was found.
pub(crate) fn found(code: u32) -> bool {
    match code {
        raw::OK => true,
        raw::MISSING => false,
        _ => panic!("the library answered {code}, which its header does not allow here"),
    }
}

pub(crate) fn halves(addr: Ipv6Addr) -> (u64, u64) {
    let bits = u128::from(addr);
    ((bits >> 64) as u64, bits as u64)
}

pub(crate) fn net(family: u8, high: u64, low: u64, len: u8) -> Net {
    let addr: IpAddr = match family {
        4 => Ipv4Addr::from(low as u32).into(),
        _ => Ipv6Addr::from(u128::from(high) << 64 | u128::from(low)).into(),
    };
    Net::new(addr, len).expect("the length fits the family")
}

fn raw_hop(hop: Hop) -> u64 {
    match hop {
        Hop::Number(number) => number.into(),
        Hop::Drop => raw::DROP,
    }
}

fn hop(hop: u64) -> Hop {
    number(hop).map_or(Hop::Drop, Hop::Number)
}

/// The number of a hop, or `None` for no hop.
pub(crate) fn number(hop: u64) -> Option<u32> {
    hop.try_into().ok()
}
