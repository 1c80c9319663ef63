//! The declarations of `routes.h`.

use std::ptr::null_mut;

pub const OK: u32 = 0;
pub const MISSING: u32 = 1;
pub const NO_MEMORY: u32 = 2;
pub const FULL: u32 = 5;
pub const NOT_A_LINE: u32 = 7;
pub const FAILED: u32 = 8;

pub const DROP: u64 = 1 << 32;
pub const NO_MATCH: u64 = 1 << 33;

#[repr(C)]
pub struct Table {
    at: *mut u8,
    is_open: bool,
}

impl Table {
    pub const CLOSED: Table = Table {
        at: null_mut(),
        is_open: false,
    };
}

#[repr(C)]
pub struct Index {
    at: *mut u8,
    is_open: bool,
}

impl Index {
    pub const CLOSED: Index = Index {
        at: null_mut(),
        is_open: false,
    };
}

#[repr(C)]
pub struct Follower {
    at: *mut u8,
    is_open: bool,
}

impl Follower {
    pub const CLOSED: Follower = Follower {
        at: null_mut(),
        is_open: false,
    };
}

#[repr(C)]
#[derive(Clone, Copy)]
pub struct Addr6 {
    pub high: u64,
    pub low: u64,
}

#[repr(C)]
#[derive(Clone, Copy, Default)]
pub struct Route {
    pub high: u64,
    pub low: u64,
    pub hop: u64,
    pub pref: u16,
    pub family: u8,
    pub len: u8,
}

#[repr(C)]
#[derive(Default)]
pub struct Change {
    pub before: u64,
    pub after: u64,
}

#[repr(C)]
#[derive(Clone, Copy, Default)]
pub struct Piece {
    pub high: u64,
    pub low: u64,
    pub hop: u32,
    pub family: u8,
    pub len: u8,
}

extern "C" {
    pub fn routes_open(table: *mut Table) -> u32;
    pub fn routes_close(table: *mut Table);
    pub fn routes_get4(table: *mut Table, addr: u32, route: *mut Route) -> u32;
    pub fn routes_get6(table: *mut Table, high: u64, low: u64, route: *mut Route) -> u32;
    pub fn routes_add4(
        table: *mut Table,
        addr: u32,
        len: u8,
        hop: u64,
        pref: u16,
        change: *mut Change,
    ) -> u32;
    pub fn routes_add6(
        table: *mut Table,
        high: u64,
        low: u64,
        len: u8,
        hop: u64,
        pref: u16,
        change: *mut Change,
    ) -> u32;
    pub fn routes_del4(table: *mut Table, addr: u32, len: u8, hop: u64, change: *mut Change)
        -> u32;
    pub fn routes_del6(
        table: *mut Table,
        high: u64,
        low: u64,
        len: u8,
        hop: u64,
        change: *mut Change,
    ) -> u32;
    pub fn routes_flat(table: *mut Table) -> u32;
    pub fn routes_read_pieces(
        table: *mut Table,
        from: usize,
        pieces: *mut Piece,
        room: usize,
    ) -> usize;
    pub fn routes_get4_many(
        table: *mut Table,
        addrs: *const u32,
        count: usize,
        hops: *mut u64,
        room: usize,
    ) -> u32;
    pub fn routes_get6_many(
        table: *mut Table,
        addrs: *const Addr6,
        count: usize,
        hops: *mut u64,
        room: usize,
    ) -> u32;
    pub fn routes_count(table: *mut Table, ipv4: *mut usize, ipv6: *mut usize) -> u32;
    pub fn routes_list4(table: *mut Table, addr: u32, len: u8) -> u32;
    pub fn routes_list6(table: *mut Table, high: u64, low: u64, len: u8) -> u32;
    pub fn routes_cover4(table: *mut Table, addr: u32, len: u8) -> u32;
    pub fn routes_cover6(table: *mut Table, high: u64, low: u64, len: u8) -> u32;
    pub fn routes_from4(table: *mut Table, addr: u32, len: u8, limit: usize) -> u32;
    pub fn routes_from6(table: *mut Table, high: u64, low: u64, len: u8, limit: usize) -> u32;
    pub fn routes_after4(table: *mut Table, addr: u32, len: u8, limit: usize) -> u32;
    pub fn routes_after6(table: *mut Table, high: u64, low: u64, len: u8, limit: usize) -> u32;
    pub fn routes_all4(table: *mut Table, addr: u32, len: u8) -> u32;
    pub fn routes_all6(table: *mut Table, high: u64, low: u64, len: u8) -> u32;
    pub fn routes_governed4(table: *mut Table, addr: u32, len: u8) -> u32;
    pub fn routes_governed6(table: *mut Table, high: u64, low: u64, len: u8) -> u32;
    pub fn routes_own(table: *mut Table, number: u32) -> u32;
    pub fn routes_least(table: *mut Table) -> u32;
    pub fn routes_read(table: *mut Table, from: usize, routes: *mut Route, room: usize) -> usize;
    pub fn routes_index_open(index: *mut Index, table: *mut Table) -> u32;
    pub fn routes_index_share(index: *mut Index, from: *mut Index) -> u32;
    pub fn routes_index_close(index: *mut Index);
    pub fn routes_index_hop4(index: *mut Index, addr: u32, hop: *mut u64) -> u32;
    pub fn routes_index_hop6(index: *mut Index, high: u64, low: u64, hop: *mut u64) -> u32;
    pub fn routes_index_hop4_many(
        index: *mut Index,
        addrs: *const u32,
        count: usize,
        hops: *mut u64,
        room: usize,
    ) -> u32;
    pub fn routes_index_hop6_many(
        index: *mut Index,
        addrs: *const Addr6,
        count: usize,
        hops: *mut u64,
        room: usize,
    ) -> u32;
    pub fn routes_follower_open(follower: *mut Follower) -> u32;
    pub fn routes_follower_close(follower: *mut Follower);
    pub fn routes_follower_line(follower: *mut Follower, line: *const u8, len: usize) -> u32;
    pub fn routes_follower_get4(follower: *mut Follower, addr: u32, hop: *mut u32) -> u32;
    pub fn routes_follower_get6(follower: *mut Follower, high: u64, low: u64, hop: *mut u32)
        -> u32;
    pub fn routes_follower_flat(follower: *mut Follower) -> u32;
    pub fn routes_follower_read_pieces(
        follower: *mut Follower,
        from: usize,
        pieces: *mut Piece,
        room: usize,
    ) -> usize;
    pub fn routes_follower_least(follower: *mut Follower) -> u32;
    pub fn routes_follower_read(
        follower: *mut Follower,
        from: usize,
        routes: *mut Route,
        room: usize,
    ) -> usize;
    pub fn routes_follower_index(index: *mut Index, follower: *mut Follower) -> u32;
    pub fn routes_line(table: *mut Table, line: *const u8, len: usize) -> u32;
    pub fn routes_reply(table: *mut Table, from: usize, out: *mut u8, room: usize) -> usize;
}
