//! Tables, indexes and followers move between threads: they are made on one, used on others, and
//! dropped on another.

use jolmidda::{Follower, Hop, Index, Net, Table, PREFERENCE};
use std::net::{IpAddr, Ipv4Addr};
use std::sync::mpsc::{channel, Receiver, Sender};
use std::sync::{Arc, Mutex};
use std::thread;

type Moved = (Table, Follower, Option<Index>, u32);

const STEPS: u32 = 200;

/// The address of a step.
fn addr(step: u32) -> Ipv4Addr {
    Ipv4Addr::from(0x0a00_0000 | step)
}

/// One more step: its address gets a hop, and the address of the step before has one.
fn stepped((mut table, mut follower, index, step): Moved) -> Moved {
    let net = Net::new(addr(step), 32).unwrap();
    table.add(net, Hop::Number(step), PREFERENCE).unwrap();
    follower.line(format!("set {net} {step}")).unwrap();
    follower.line("ok").unwrap();
    let flat = table.flat().unwrap();
    assert_eq!(flat.len() as u32, step + 1);
    assert_eq!(follower.flat().unwrap(), flat);
    assert_eq!(follower.hop(addr(step)), Ok(Some(step)));
    if let Some(index) = index {
        assert_eq!(index.hop(addr(step - 1)), Some(step - 1));
        assert_eq!(index.hop(addr(step)), None);
    }
    let index = follower.index().unwrap();
    (table, follower, Some(index), step + 1)
}

/// Receives values, makes one step with each, and passes it on. At the last step it is dropped
/// here.
fn work(from: Receiver<Moved>, to: Sender<Moved>) {
    for moved in from {
        let moved = stepped(moved);
        if moved.3 == STEPS || to.send(moved).is_err() {
            return;
        }
    }
}

#[test]
fn from_thread_to_thread() {
    let ((to_second, from_first), (to_first, from_second)) = (channel(), channel());
    let made = (Table::new().unwrap(), Follower::new().unwrap(), None, 0);
    to_first.send(made).unwrap();
    let first = thread::spawn(move || work(from_second, to_second));
    let second = thread::spawn(move || work(from_first, to_first));
    first.join().unwrap();
    second.join().unwrap();
}

/// Threads look up addresses in one snapshot at the same time, each by an index of its own.
#[test]
fn by_shares_of_an_index() {
    let mut table = Table::new().unwrap();
    for step in 0..STEPS {
        let net = Net::new(addr(step), 32).unwrap();
        table.add(net, Hop::Number(step), PREFERENCE).unwrap();
    }
    let index = Index::new(&table).unwrap();
    let threads: Vec<_> = (0..8)
        .map(|_| {
            let share = index.share().unwrap();
            thread::spawn(move || {
                let addrs: Vec<IpAddr> = (0..STEPS).map(|step| addr(step).into()).collect();
                let hops: Vec<_> = (0..STEPS).map(Some).collect();
                assert_eq!(share.hops(&addrs), Ok(hops));
                assert_eq!(share.share().unwrap().hop(addr(STEPS)), None);
            })
        })
        .collect();
    drop((table, index));
    for thread in threads {
        thread.join().unwrap();
    }
}

/// A lock makes a table shareable.
#[test]
fn behind_a_lock() {
    let table = Arc::new(Mutex::new(Table::new().unwrap()));
    let threads: Vec<_> = (0..4)
        .map(|thread| {
            let table = Arc::clone(&table);
            thread::spawn(move || {
                for step in 0..STEPS {
                    let net = Net::new(addr(thread << 16 | step), 32).unwrap();
                    let hop = Hop::Number(thread);
                    table.lock().unwrap().add(net, hop, PREFERENCE).unwrap();
                }
            })
        })
        .collect();
    for thread in threads {
        thread.join().unwrap();
    }
    let count = table.lock().unwrap().count();
    assert_eq!(count.ipv4 as u32, 4 * STEPS);
}
