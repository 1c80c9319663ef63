use crate::lists::{pieces, routes};
use crate::table::{boxed, check, halves};
use crate::{raw, Error, Index, Piece, Route};
use std::cell::UnsafeCell;
use std::fmt;
use std::net::IpAddr;

/// The hops that the reply lines of a leader report. The leader is `routes lead` or
/// [`Table::line`].
///
/// `set` and `unset` lines are pending until their reply is closed. `ok` commits them in order,
/// and `none`, `bad` and `refused` drop them. All other reply lines change nothing. A text that
/// is not a reply line is a fault, and so is a line for which an allocation fails. After a fault
/// every call returns `Failed`, and a new follower has to start over.
///
/// ```
/// use jolmidda::{Error, Follower, Table};
/// use std::net::Ipv4Addr;
///
/// let (mut leader, mut follower) = (Table::new()?, Follower::new()?);
/// for line in leader.line("add 10.0.0.0/8 1")?.lines() {
///     follower.line(line)?;
/// }
/// assert_eq!(follower.hop(Ipv4Addr::new(10, 2, 3, 4)), Ok(Some(1)));
/// assert_eq!(follower.line("add 10.0.0.0/8 1"), Err(Error::NotALine));
/// assert_eq!(follower.hop(Ipv4Addr::new(10, 2, 3, 4)), Err(Error::Failed));
/// # Ok::<(), Error>(())
/// ```
///
/// A follower is `Send` and not `Sync`, as a table is.
///
/// [`Table::line`]: crate::Table::line
pub struct Follower {
    /// As in a table.
    raw: Box<UnsafeCell<raw::Follower>>,
}

// SAFETY: as for a table.
unsafe impl Send for Follower {}

impl Follower {
    /// Makes a follower that has read no line: no address has a hop.
    ///
    /// # Errors
    /// `NoMemory`.
    pub fn new() -> Result<Follower, Error> {
        let raw = boxed(raw::Follower::CLOSED)?;
        let follower = Follower { raw };
        // SAFETY: the follower is closed, and ours alone.
        check(unsafe { raw::routes_follower_open(follower.raw.get()) })?;
        Ok(follower)
    }

    /// Reads a line of a reply, given without its line end.
    ///
    /// # Errors
    /// `NotALine` if the text is not a reply line, and `NoMemory` if a change can't be kept or
    /// committed: both are faults. `Failed` after a fault.
    pub fn line(&mut self, line: impl AsRef<[u8]>) -> Result<(), Error> {
        let line = line.as_ref();
        // SAFETY: the follower is as `raw` says, and `line` is a slice.
        check(unsafe { raw::routes_follower_line(self.raw.get_mut(), line.as_ptr(), line.len()) })
    }

    /// Returns the hop of the address, or `None` if it has none.
    ///
    /// # Errors
    /// `Failed` after a fault.
    pub fn hop(&self, addr: impl Into<IpAddr>) -> Result<Option<u32>, Error> {
        let (follower, mut hop) = (self.raw.get(), 0);
        // SAFETY: the follower is as `raw` says, and `hop` is ours.
        let code = unsafe {
            match addr.into() {
                IpAddr::V4(addr) => raw::routes_follower_get4(follower, addr.into(), &mut hop),
                IpAddr::V6(addr) => {
                    let (high, low) = halves(addr);
                    raw::routes_follower_get6(follower, high, low, &mut hop)
                }
            }
        };
        match code {
            raw::MISSING => Ok(None),
            code => check(code).map(|()| Some(hop)),
        }
    }

    /// Returns the fewest one-hop blocks that cover all addresses with a hop, in ascending order.
    ///
    /// # Errors
    /// `NoMemory`, and `Failed` after a fault.
    pub fn flat(&self) -> Result<Vec<Piece>, Error> {
        // SAFETY: the follower is as `raw` says.
        check(unsafe { raw::routes_follower_flat(self.raw.get()) })?;
        // SAFETY: the follower is as `raw` says, and `part` is a slice.
        pieces(|from, part| unsafe {
            raw::routes_follower_read_pieces(self.raw.get(), from, part.as_mut_ptr(), part.len())
        })
    }

    /// Returns the routes of a least table: the fewest with the same hop at each address.
    ///
    /// # Errors
    /// `NoMemory`, and `Failed` after a fault.
    pub fn least(&self) -> Result<Vec<Route>, Error> {
        // SAFETY: the follower is as `raw` says.
        check(unsafe { raw::routes_follower_least(self.raw.get()) })?;
        // SAFETY: the follower is as `raw` says, and `part` is a slice.
        routes(|from, part| unsafe {
            raw::routes_follower_read(self.raw.get(), from, part.as_mut_ptr(), part.len())
        })
    }

    /// Makes an index of the hops that the follower has now: a snapshot, which later lines don't
    /// change.
    ///
    /// # Errors
    /// `NoMemory`, and `Failed` after a fault.
    pub fn index(&self) -> Result<Index, Error> {
        // SAFETY: the index is closed, and ours alone; the follower is as `raw` says.
        Index::opened(|index| unsafe { raw::routes_follower_index(index, self.raw.get()) })
    }
}

impl Drop for Follower {
    fn drop(&mut self) {
        // SAFETY: the follower is as `raw` says, and is not used again.
        unsafe { raw::routes_follower_close(self.raw.get_mut()) }
    }
}

impl fmt::Debug for Follower {
    fn fmt(&self, f: &mut fmt::Formatter<'_>) -> fmt::Result {
        f.debug_struct("Follower").finish_non_exhaustive()
    }
}
