//! A follower: it reads the lines of a table's replies, and returns the hops that they report.

use jolmidda::{Error, Follower, Hop, Index, Net, Route, Table, PREFERENCE};
use std::net::IpAddr;

const LINES: [&str; 7] = [
    "add 10.0.0.0/8 1",
    "add 10.64.0.0/10 2",
    "add 10.64.0.0/12 drop",
    "add 2001:db8::/32 3",
    "list ::/0",
    "del 10.64.0.0/10 2",
    "add 10.0.0.0/8 4 200",
];

const ADDRS: [&str; 6] = [
    "9.255.255.255",
    "10.0.0.0",
    "10.64.0.0",
    "10.80.0.0",
    "10.255.255.255",
    "2001:db8::1",
];

/// Gives each line to a table, and each line of the replies to a follower. `see` sees both after
/// each reply.
fn followed(see: impl Fn(&Table, &Follower)) {
    let (mut table, mut follower) = (Table::new().unwrap(), Follower::new().unwrap());
    see(&table, &follower);
    for line in LINES {
        for told in table.line(line).unwrap().lines() {
            follower.line(told).unwrap();
        }
        see(&table, &follower);
    }
}

#[test]
fn hops_and_the_flat_list_of_the_leader() {
    followed(|table, follower| {
        assert_eq!(follower.flat(), table.flat());
        let (index, copy) = (follower.index().unwrap(), Index::new(table).unwrap());
        for addr in ADDRS {
            let addr: IpAddr = addr.parse().unwrap();
            assert_eq!(follower.hop(addr), Ok(copy.hop(addr)), "{addr}");
            assert_eq!(index.hop(addr), copy.hop(addr), "{addr}");
        }
    });
}

#[test]
fn a_least_table() {
    followed(|table, follower| {
        let (least, other) = (follower.least().unwrap(), table.least().unwrap());
        assert_eq!(least.len(), other.len());
        let mut made = Table::new().unwrap();
        for route in least {
            made.add(route.net, route.hop, route.preference).unwrap();
        }
        assert_eq!(made.flat(), follower.flat());
    });
}

/// A change has no effect before `ok`, and none if its reply ends otherwise.
#[test]
fn what_waits() {
    let mut follower = Follower::new().unwrap();
    for line in ["set 10.0.0.0/8 1", "refused", "set 10.0.0.0/9 2"] {
        follower.line(line).unwrap();
        assert_eq!(follower.hop([10, 0, 0, 0]), Ok(None));
    }
    follower.line(b"ok").unwrap();
    assert_eq!(follower.hop([10, 0, 0, 0]), Ok(Some(2)));
    assert_eq!(follower.hop([10, 128, 0, 0]), Ok(None));
    let route = Route {
        net: Net::new([10, 0, 0, 0], 9).unwrap(),
        hop: Hop::Number(2),
        preference: PREFERENCE,
    };
    assert_eq!(follower.least(), Ok(vec![route]));
}

#[test]
fn a_fault_is_for_good() {
    let mut follower = Follower::new().unwrap();
    assert_eq!(follower.line("ok\n"), Err(Error::NotALine));
    assert_eq!(follower.line("ok"), Err(Error::Failed));
    assert_eq!(follower.hop([0; 16]), Err(Error::Failed));
    assert_eq!(follower.flat(), Err(Error::Failed));
    assert_eq!(follower.least(), Err(Error::Failed));
    assert_eq!(follower.index().map(drop), Err(Error::Failed));
}

/// A list that is longer than the part that is copied at once.
#[test]
fn a_long_list() {
    let mut follower = Follower::new().unwrap();
    for part in 0..1000_u32 {
        let line = format!("set 10.{}.{}.0/24 {part}", part >> 8, part & 255);
        follower.line(line).unwrap();
    }
    follower.line("ok").unwrap();
    let routes = follower.least().unwrap().into_iter();
    assert!(routes.map(|route| route.hop).eq((0..1000).map(Hop::Number)));
    let pieces = follower.flat().unwrap().into_iter();
    assert!(pieces.map(|piece| piece.hop).eq(0..1000));
}
