//! Route tables for IPv4 and IPv6: the longest match of an address, the hops that a change
//! changes, and the shortest list of one-hop blocks.
//!
//! This is a safe wrapper of the C library `routes`. The results of the library are proved for
//! every caller that keeps the rules of its header, and the types of this crate keep them.
//!
//! ```
//! use jolmidda::{Change, Hop, Table, PREFERENCE};
//! use std::net::Ipv4Addr;
//!
//! let mut table = Table::new()?;
//! table.add("10.0.0.0/8".parse()?, Hop::Number(1), PREFERENCE)?;
//! let change = table.add("10.1.0.0/16".parse()?, Hop::Drop, PREFERENCE)?;
//! assert_eq!(change, Change { before: Some(1), after: None });
//!
//! let route = table.get(Ipv4Addr::new(10, 2, 3, 4)).expect("10.0.0.0/8 contains it");
//! assert_eq!(route.to_string(), "10.0.0.0/8 1 100");
//! # Ok::<(), Box<dyn std::error::Error>>(())
//! ```
//!
//! # Linking
//!
//! When the crate is built, the environment variable `ROUTES_LIB` gives the full path of the
//! library's folder. If that folder has libroutes.a, the program is linked with it, and else with
//! libroutes.so. Without the variable the linker searches its own path for libroutes.so.
//!
//! # Threads
//!
//! A [`Table`], an [`Index`] or a [`Follower`] is `Send` and not `Sync`: move it to another
//! thread, or share it behind a lock. For lookups on several threads at the same time, give each
//! an index of its own by [`Index::share`]. In the forked child of a process with threads, make
//! no call. A drop is a call: pass each object to [`std::mem::forget`] there.

#![warn(missing_docs)]

mod error;
mod follower;
mod index;
mod lists;
mod many;
mod net;
mod raw;
mod route;
mod table;

pub use error::{Error, ParseHopError, ParseNetError, ParseRouteError};
pub use follower::Follower;
pub use index::Index;
pub use net::Net;
pub use route::{Change, Count, Hop, Piece, Route, PREFERENCE};
pub use table::Table;
