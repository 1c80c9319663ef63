//! Random steps of a table, each compared with a plain model: a map of networks to their routes.

use jolmidda::{Change, Count, Error, Hop, Index, Net, Piece, Route, Table, PREFERENCE};
use std::collections::BTreeMap;
use std::net::{IpAddr, Ipv4Addr, Ipv6Addr};

/// The steps change these two networks, of 16 addresses each, and networks inside them.
const ROOTS: [(IpAddr, u8); 2] = [
    (IpAddr::V4(Ipv4Addr::new(10, 0, 0, 240)), 28),
    (
        IpAddr::V6(Ipv6Addr::new(0x2001, 0xdb8, 0, 0xffff, 0, 0, 0, 0)),
        124,
    ),
];
const SIZE: u32 = 16;

/// An address of a root.
fn addr(root: (IpAddr, u8), index: u32) -> IpAddr {
    match root.0 {
        IpAddr::V4(first) => Ipv4Addr::from(u32::from(first) + index).into(),
        IpAddr::V6(first) => Ipv6Addr::from(u128::from(first) + u128::from(index)).into(),
    }
}

/// The network of this size, a power of two, that contains this address of a root.
fn net(root: (IpAddr, u8), index: u32, size: u32) -> Net {
    let len = root.1 + (SIZE / size).ilog2() as u8;
    Net::new(addr(root, index), len).unwrap()
}

#[derive(Default)]
struct Model(BTreeMap<Net, BTreeMap<Hop, u16>>);

impl Model {
    /// The best route of the longest stored network that contains all of this one.
    fn get(&self, net: Net) -> Option<Route> {
        let around = self.0.iter().filter(|(other, _)| {
            other.prefix_len() <= net.prefix_len() && other.contains(net.addr())
        });
        let (&net, routes) = around.max_by_key(|(other, _)| other.prefix_len())?;
        let best = routes
            .iter()
            .rev()
            .max_by_key(|(_, &preference)| preference);
        best.map(|(&hop, &preference)| Route {
            net,
            hop,
            preference,
        })
    }

    fn hop(&self, net: Net) -> Option<u32> {
        match self.get(net)?.hop {
            Hop::Number(number) => Some(number),
            Hop::Drop => None,
        }
    }

    fn add(&mut self, net: Net, hop: Hop, preference: u16) -> Result<Change, Error> {
        let before = self.hop(net);
        let routes = self.0.entry(net).or_default();
        if routes.len() == 8 && !routes.contains_key(&hop) {
            return Err(Error::Full);
        }
        routes.insert(hop, preference);
        Ok(Change {
            before,
            after: self.hop(net),
        })
    }

    fn del(&mut self, net: Net, hop: Hop) -> Option<Change> {
        let before = self.hop(net);
        let routes = self.0.get_mut(&net)?;
        routes.remove(&hop)?;
        if routes.is_empty() {
            self.0.remove(&net);
        }
        Some(Change {
            before,
            after: self.hop(net),
        })
    }

    /// The best routes of the networks of this one's family, ascending.
    fn best(&self, net: Net) -> impl Iterator<Item = Route> + '_ {
        let nets = self.0.keys().copied();
        let nets = nets.filter(move |other| other.addr().is_ipv4() == net.addr().is_ipv4());
        nets.map(|other| self.get(other).unwrap())
    }

    fn count(&self) -> Count {
        let ipv4 = self.0.keys().filter(|net| net.addr().is_ipv4()).count();
        let ipv6 = self.0.len() - ipv4;
        Count { ipv4, ipv6 }
    }

    /// All routes of the network, best first.
    fn all(&self, net: Net) -> Vec<Route> {
        let mut routes: Vec<_> = self.0.get(&net).into_iter().flatten().collect();
        routes.sort_by_key(|&(&hop, &preference)| (u16::MAX - preference, hop));
        let route = |(&hop, &preference)| Route {
            net,
            hop,
            preference,
        };
        routes.into_iter().map(route).collect()
    }

    /// The blocks of a block of a root that contain no network strictly inside `net`, with the
    /// hop of the match of `net`.
    fn governed(&self, net: Net, root: (IpAddr, u8), index: u32, size: u32) -> Vec<Route> {
        let block = self::net(root, index, size);
        let mut inner = self
            .0
            .keys()
            .filter(|other| is_inside(**other, net) && **other != net);
        if inner.clone().any(|other| is_inside(block, *other)) {
            return Vec::new();
        }
        if !inner.any(|other| is_inside(*other, block)) {
            let hop = self.get(net).map_or(Hop::Drop, |route| route.hop);
            return vec![route_of(block, hop)];
        }
        let half = size / 2;
        let mut blocks = self.governed(net, root, index, half);
        blocks.extend(self.governed(net, root, index + half, half));
        blocks
    }

    /// The flat list of a block of a root.
    fn flat(&self, root: (IpAddr, u8), index: u32, size: u32) -> Vec<Piece> {
        let block = net(root, index, size);
        if size == 1 {
            return self
                .hop(block)
                .map(|hop| Piece { net: block, hop })
                .into_iter()
                .collect();
        }
        let half = size / 2;
        let mut pieces = self.flat(root, index, half);
        pieces.extend(self.flat(root, index + half, half));
        match pieces[..] {
            [low, high] if low.hop == high.hop && is_half(low, block) && is_half(high, block) => {
                vec![Piece {
                    net: block,
                    hop: low.hop,
                }]
            }
            _ => pieces,
        }
    }
}

fn is_inside(inner: Net, outer: Net) -> bool {
    outer.prefix_len() <= inner.prefix_len() && outer.contains(inner.addr())
}

/// A route with the preference that lists of blocks have.
fn route_of(net: Net, hop: Hop) -> Route {
    Route {
        net,
        hop,
        preference: PREFERENCE,
    }
}

/// The lists, the lookups of many addresses, and an index agree with the model.
fn compare(random: &mut Random, table: &Table, model: &Model) {
    let root = ROOTS[random.below(2) as usize];
    let size = 1 << random.below(5);
    let index = random.below(SIZE) / size * size;
    let limit = [0, 1, 2, 3, 4, 5, usize::MAX][random.below(7) as usize];
    let net = net(root, index, size);
    let best = |wanted: &dyn Fn(Net) -> bool, limit| -> Vec<Route> {
        let routes = model.best(net).filter(|route| wanted(route.net));
        routes.take(limit).collect()
    };
    let all = usize::MAX;
    assert_eq!(
        table.list(net),
        Ok(best(&|other| is_inside(other, net), all))
    );
    assert_eq!(
        table.cover(net),
        Ok(best(&|other| is_inside(net, other), all))
    );
    assert_eq!(
        table.page_from(net, limit),
        Ok(best(&|other| other >= net, limit))
    );
    assert_eq!(
        table.page_after(net, limit),
        Ok(best(&|other| other > net, limit))
    );
    assert_eq!(table.all(net), Ok(model.all(net)));
    assert_eq!(
        table.governed(net),
        Ok(model.governed(net, root, index, size))
    );
    assert_eq!(table.count(), model.count());
    for hop in 0..9 {
        let pieces = table.flat().unwrap().into_iter();
        let own = pieces.filter(|piece| piece.hop == hop);
        let own = own.map(|piece| route_of(piece.net, Hop::Number(hop)));
        assert_eq!(table.own(hop), Ok(own.collect()));
    }
    let addrs: Vec<_> = (0..40)
        .map(|_| addr(ROOTS[random.below(2) as usize], random.below(SIZE)))
        .collect();
    let found = addrs
        .iter()
        .map(|&addr| model.get(addr.into()).map(|route| route.hop));
    assert_eq!(table.hops(&addrs), Ok(found.collect()));
    let hops: Vec<_> = addrs.iter().map(|&addr| model.hop(addr.into())).collect();
    let index = Index::new(table).unwrap();
    assert_eq!(index.hops(&addrs).as_ref(), Ok(&hops));
    assert_eq!(index.hop(addrs[0]), hops[0]);
    let mut least = Model::default();
    for route in table.least().unwrap() {
        least.add(route.net, route.hop, route.preference).unwrap();
    }
    assert!(least.0.len() <= model.0.len());
    assert_eq!(
        addrs
            .iter()
            .map(|&addr| least.hop(addr.into()))
            .collect::<Vec<_>>(),
        hops
    );
}

fn is_half(piece: Piece, block: Net) -> bool {
    piece.net.prefix_len() == block.prefix_len() + 1
}

/// Xorshift: numbers that look random, and are the same in each run.
struct Random(u64);

impl Random {
    fn below(&mut self, bound: u32) -> u32 {
        self.0 ^= self.0 << 13;
        self.0 ^= self.0 >> 7;
        self.0 ^= self.0 << 17;
        ((self.0 >> 32) % u64::from(bound)) as u32
    }

    fn hop(&mut self) -> Hop {
        match self.below(11) {
            10 => Hop::Drop,
            9 => Hop::Number(u32::MAX),
            number => Hop::Number(number),
        }
    }
}

#[test]
fn random_turns() {
    let mut random = Random(0x9e37_79b9_7f4a_7c15);
    let mut table = Table::new().unwrap();
    let mut model = Model::default();
    let mut full = 0;
    for turn in 0..4000 {
        let root = ROOTS[random.below(2) as usize];
        let net = net(root, random.below(SIZE), 1 << random.below(5));
        let (hop, preference) = (random.hop(), [0, 100, 65535][random.below(3) as usize]);
        // Tables grow for a while, and then shrink.
        if random.below(10) < if turn % 1000 < 600 { 8 } else { 2 } {
            let added = model.add(net, hop, preference);
            full += u32::from(added.is_err());
            assert_eq!(
                table.add(net, hop, preference),
                added,
                "add {net} {hop} {preference}"
            );
        } else {
            assert_eq!(table.del(net, hop), model.del(net, hop), "del {net} {hop}");
        }
        let addr = addr(root, random.below(SIZE));
        assert_eq!(table.get(addr), model.get(addr.into()), "get {addr}");
        if turn % 20 == 0 {
            let pieces = ROOTS.iter().flat_map(|&root| model.flat(root, 0, SIZE));
            assert_eq!(table.flat().unwrap(), pieces.collect::<Vec<_>>());
            compare(&mut random, &table, &model);
        }
    }
    assert!(full > 0, "no network was full");
}

#[test]
fn an_index_is_a_copy() {
    let mut table = Table::new().unwrap();
    let net = "10.0.0.0/8".parse().unwrap();
    let addr = Ipv4Addr::new(10, 0, 0, 1);
    table.add(net, Hop::Number(1), PREFERENCE).unwrap();
    let index = Index::new(&table).unwrap();
    table.add(net, Hop::Number(2), 200).unwrap();
    assert_eq!((index.hop(addr), index.hop([0; 16])), (Some(1), None));
    assert_eq!(table.hops(&[addr.into()]), Ok(vec![Some(2.into())]));
    drop(table);
    assert_eq!(index.hop(addr), Some(1));
}

/// A list that is longer than the part that is copied at once.
#[test]
fn a_long_list() {
    let mut table = Table::new().unwrap();
    for part in 0..1000_u32 {
        let addr = Ipv4Addr::from(0x0a00_0000 | part << 8);
        table
            .add(Net::new(addr, 24).unwrap(), Hop::Number(part), 1)
            .unwrap();
    }
    let routes = table.list(Net::new([0; 4], 0).unwrap()).unwrap();
    assert!(routes
        .iter()
        .map(|route| route.hop)
        .eq((0..1000).map(Hop::Number)));
}

#[test]
fn both_ends_of_both_families() {
    let mut table = Table::new().unwrap();
    for (first, last, len) in [
        (IpAddr::from([0; 4]), IpAddr::from([255; 4]), 32),
        (IpAddr::from([0; 16]), IpAddr::from([255; 16]), 128),
    ] {
        let all = Net::new(last, 0).unwrap();
        assert_eq!(table.get(first), None);
        table.add(all, Hop::Number(1), 0).unwrap();
        table
            .add(Net::new(last, len).unwrap(), Hop::Drop, 65535)
            .unwrap();
        let route = Route {
            net: all,
            hop: Hop::Number(1),
            preference: 0,
        };
        assert_eq!(table.get(first), Some(route));
        assert_eq!(
            table.get(last).map(|route| route.to_string()),
            Some(format!("{last}/{len} drop 65535"))
        );
        assert_eq!(table.flat().unwrap().last().unwrap().net.prefix_len(), len);
    }
    let count = table.line("count").unwrap();
    assert_eq!(count, "count 2 2\nok\n");
}
