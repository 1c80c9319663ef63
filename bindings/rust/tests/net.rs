//! Networks, hops and routes, read and printed.

use jolmidda::{Hop, Net, ParseHopError, ParseNetError, ParseRouteError, Piece, Route};
use std::net::{IpAddr, Ipv4Addr, Ipv6Addr};

#[test]
fn read_and_shown() {
    for (text, shown) in [
        ("10.1.2.3/8", "10.0.0.0/8"),
        ("255.255.255.255/32", "255.255.255.255/32"),
        ("255.255.255.255/0", "0.0.0.0/0"),
        ("2001:DB8:0:0:1:0:0:1/128", "2001:db8::1:0:0:1/128"),
        ("::ffff:192.0.2.1/128", "::ffff:192.0.2.1/128"),
        ("ffff::ffff/0", "::/0"),
    ] {
        assert_eq!(text.parse::<Net>().unwrap().to_string(), shown);
    }
}

#[test]
fn no_networks() {
    for text in [
        "",
        "/",
        "10.0.0.0",
        "10.0.0.0/",
        "10.0.0.0/33",
        "10.0.0.0/+8",
        "10.0/8",
        "10.0.0.0/8 ",
        "10.0.0.0/8/8",
        "::/129",
        "::/256",
        ":/0",
    ] {
        assert_eq!(text.parse::<Net>(), Err(ParseNetError), "{text}");
    }
    assert_eq!(Net::new(Ipv4Addr::LOCALHOST, 33), None);
    assert_eq!(Net::new(Ipv6Addr::LOCALHOST, 129), None);
}

#[test]
fn addresses_of_a_network() {
    let net: Net = "10.0.0.0/8".parse().unwrap();
    assert!(net.contains(Ipv4Addr::new(10, 255, 255, 255)));
    assert!(!net.contains(Ipv4Addr::new(11, 0, 0, 0)));
    assert!(!net.contains(Ipv6Addr::UNSPECIFIED));
}

#[test]
fn networks_of_an_address() {
    for (addr, len) in [("255.255.255.255", 32), ("ffff::ffff", 128)] {
        let addr: IpAddr = addr.parse().unwrap();
        assert_eq!(Net::from(addr), Net::new(addr, len).unwrap());
    }
}

#[test]
fn hops_read_and_shown() {
    for (text, hop) in [
        ("0", Hop::from(0)),
        ("10", Hop::Number(10)),
        ("4294967295", Hop::Number(u32::MAX)),
        ("drop", Hop::Drop),
    ] {
        assert_eq!(text.parse(), Ok(hop));
        assert_eq!(hop.to_string(), text);
    }
    for text in [
        "",
        "+1",
        "-1",
        "00",
        "01",
        "1 ",
        "4294967296",
        "Drop",
        "drop ",
        "none",
    ] {
        assert_eq!(text.parse::<Hop>(), Err(ParseHopError), "{text}");
    }
}

#[test]
fn routes_read_and_shown() {
    for text in [
        "10.0.0.0/8 1 100",
        "0.0.0.0/0 drop 0",
        "2001:db8::1:0:0:1/128 4294967295 65535",
        "::ffff:192.0.2.0/120 7 1",
    ] {
        assert_eq!(text.parse::<Route>().unwrap().to_string(), text);
    }
    for text in [
        "",
        "10.0.0.0/8",
        "10.0.0.0/8 1",
        "10.0.0.0/8 1 65536",
        "10.0.0.0/8 1 0100",
        "10.0.0.0/8 01 100",
        "10.0.0.0/8 1 100 ",
        "10.0.0.0/8  1 100",
        "10.0.0.0/8 1 100 7",
        "10.0.0.1/8 1 100",
        "10.0.0.0/08 1 100",
        "2001:DB8::/32 1 100",
    ] {
        assert_eq!(text.parse::<Route>(), Err(ParseRouteError), "{text}");
    }
}

#[test]
fn pieces_shown() {
    let net = "10.0.0.0/8".parse().unwrap();
    assert_eq!(Piece { net, hop: 1 }.to_string(), "10.0.0.0/8 1");
}
