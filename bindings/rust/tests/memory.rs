//! Allocations of the crate itself fail, one after the other. Those of the library are its own.

use jolmidda::{Error, Follower, Index, Table, PREFERENCE};
use std::alloc::{GlobalAlloc, Layout, System};
use std::cell::Cell;
use std::net::IpAddr;
use std::ptr::null_mut;

thread_local! {
    /// How many allocations succeed.
    static LEFT: Cell<usize> = const { Cell::new(usize::MAX) };
}

struct Scarce;

impl Scarce {
    fn has_room() -> bool {
        let left = LEFT.with(Cell::get);
        LEFT.with(|it| it.set(left.saturating_sub(1)));
        left > 0
    }
}

// SAFETY: the allocator of the system does the work, or there is no memory.
unsafe impl GlobalAlloc for Scarce {
    unsafe fn alloc(&self, layout: Layout) -> *mut u8 {
        if Scarce::has_room() {
            System.alloc(layout)
        } else {
            null_mut()
        }
    }

    unsafe fn realloc(&self, at: *mut u8, layout: Layout, size: usize) -> *mut u8 {
        if Scarce::has_room() {
            System.realloc(at, layout, size)
        } else {
            null_mut()
        }
    }

    unsafe fn dealloc(&self, at: *mut u8, layout: Layout) {
        System.dealloc(at, layout);
    }
}

#[global_allocator]
static ALLOCATOR: Scarce = Scarce;

/// Makes the call with room for no allocation, for one, for two and so on, until it succeeds.
fn scarce<T>(mut call: impl FnMut() -> Result<T, Error>) -> T {
    for left in 0.. {
        LEFT.with(|it| it.set(left));
        let result = call();
        LEFT.with(|it| it.set(usize::MAX));
        match result {
            Ok(value) if left > 0 => return value,
            result => assert_eq!(result.err(), Some(Error::NoMemory)),
        }
    }
    unreachable!()
}

#[test]
fn calls_without_memory() {
    let mut table = scarce(Table::new);
    let mut follower = scarce(Follower::new);
    // So many that each list and each reply is copied in several parts.
    for part in 0..300 {
        let net = format!("10.{}.{}.0/24", part / 256, part % 256);
        table
            .add(net.parse().unwrap(), part.into(), PREFERENCE)
            .unwrap();
        follower.line(format!("set {net} {part}")).unwrap();
    }
    follower.line("ok").unwrap();
    let all = "0.0.0.0/0".parse().unwrap();
    assert_eq!(scarce(|| table.flat()).len(), 300);
    assert_eq!(scarce(|| table.list(all)).len(), 300);
    assert_eq!(scarce(|| table.page_from(all, usize::MAX)).len(), 300);
    assert_eq!(scarce(|| table.own(7)).len(), 1);
    assert_eq!(scarce(|| table.least()).len(), 300);
    assert_eq!(scarce(|| table.line("list 0.0.0.0/0")).lines().count(), 301);
    assert_eq!(scarce(|| follower.flat()).len(), 300);
    assert_eq!(scarce(|| follower.least()).len(), 300);
    let addrs: [IpAddr; 2] = [[10, 0, 7, 0].into(), [0; 16].into()];
    assert_eq!(scarce(|| table.hops(&addrs)), [Some(7.into()), None]);
    let index = scarce(|| Index::new(&table));
    assert_eq!(scarce(|| index.hops(&addrs)), [Some(7), None]);
    assert_eq!(scarce(|| index.share()).hop(addrs[0]), Some(7));
    assert_eq!(scarce(|| follower.index()).hop(addrs[0]), Some(7));
}
