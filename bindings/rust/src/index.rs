use crate::many::answers;
use crate::table::{boxed, check, found, halves, number};
use crate::{raw, Error, Table};
use std::cell::UnsafeCell;
use std::fmt;
use std::net::IpAddr;

/// The hop of each address, as a table had it when the index was made. An index is a snapshot:
/// later changes don't reach it. Its lookups are faster than the table's.
///
/// An index is `Send` and not `Sync`, as a table is. Give each thread that looks up addresses an
/// index of its own, which `share` makes without a copy:
///
/// ```
/// use jolmidda::{Hop, Index, Table, PREFERENCE};
/// use std::net::Ipv4Addr;
/// use std::thread;
///
/// let mut table = Table::new()?;
/// table.add("10.0.0.0/8".parse()?, Hop::Number(1), PREFERENCE)?;
/// let index = Index::new(&table)?;
/// let other = index.share()?;
/// let reader = thread::spawn(move || other.hop(Ipv4Addr::new(10, 2, 3, 4)));
/// assert_eq!(index.hop(Ipv4Addr::new(10, 2, 3, 4)), Some(1));
/// assert_eq!(reader.join().unwrap(), Some(1));
/// # Ok::<(), Box<dyn std::error::Error>>(())
/// ```
pub struct Index {
    /// As in a table.
    raw: Box<UnsafeCell<raw::Index>>,
}

// SAFETY: as for a table.
unsafe impl Send for Index {}

impl Index {
    /// Makes an index of the hops that the table has now.
    ///
    /// # Errors
    /// `NoMemory`.
    pub fn new(table: &Table) -> Result<Index, Error> {
        // SAFETY: the index is closed, and ours alone; the table is as its `raw` says.
        Index::opened(|index| unsafe { raw::routes_index_open(index, table.raw.get()) })
    }

    /// Opens an index with a call of the library on a closed one.
    pub(crate) fn opened(open: impl FnOnce(*mut raw::Index) -> u32) -> Result<Index, Error> {
        let raw = boxed(raw::Index::CLOSED)?;
        let index = Index { raw };
        check(open(index.raw.get()))?;
        Ok(index)
    }

    /// Makes another index of the same snapshot, for another thread. Nothing is copied, and the
    /// memory is freed when all of them are dropped.
    ///
    /// # Errors
    /// `NoMemory`.
    pub fn share(&self) -> Result<Index, Error> {
        // SAFETY: the new index is closed, and ours alone; this one is as its `raw` says.
        Index::opened(|index| unsafe { raw::routes_index_share(index, self.raw.get()) })
    }

    /// Returns the hop of the address, or `None` if it had no route or a null route.
    pub fn hop(&self, addr: impl Into<IpAddr>) -> Option<u32> {
        let mut hop = 0;
        // SAFETY: the index is as `raw` says, and `hop` is ours.
        let code = unsafe {
            match addr.into() {
                IpAddr::V4(addr) => raw::routes_index_hop4(self.raw.get(), addr.into(), &mut hop),
                IpAddr::V6(addr) => {
                    let (high, low) = halves(addr);
                    raw::routes_index_hop6(self.raw.get(), high, low, &mut hop)
                }
            }
        };
        found(code);
        number(hop)
    }

    /// Returns the hops of the addresses, with two calls of the library.
    ///
    /// # Errors
    /// `NoMemory`.
    pub fn hops(&self, addrs: &[IpAddr]) -> Result<Vec<Option<u32>>, Error> {
        let index = self.raw.get();
        // SAFETY: the index is as `raw` says, and the slices are ours.
        answers(
            addrs,
            number,
            |addrs, hops| unsafe {
                let (from, to) = (addrs.as_ptr(), hops.as_mut_ptr());
                raw::routes_index_hop4_many(index, from, addrs.len(), to, hops.len())
            },
            |addrs, hops| unsafe {
                let (from, to) = (addrs.as_ptr(), hops.as_mut_ptr());
                raw::routes_index_hop6_many(index, from, addrs.len(), to, hops.len())
            },
        )
    }
}

impl Drop for Index {
    fn drop(&mut self) {
        // SAFETY: the index is as `raw` says.
        unsafe { raw::routes_index_close(self.raw.get_mut()) }
    }
}

impl fmt::Debug for Index {
    fn fmt(&self, f: &mut fmt::Formatter<'_>) -> fmt::Result {
        f.debug_struct("Index").finish_non_exhaustive()
    }
}
