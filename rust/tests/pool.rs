//! A pool of connections that eight threads use, over a proxy that cuts at random.
//!
//! Each test starts a `bolt_server`, or takes the one at BOLT_PORT, which has to serve several clients at once.

mod common;
#[path = "common/cut.rs"]
mod cut;
#[path = "common/server.rs"]
mod server;

use bolt::{Connection, Error, ErrorKind, Fate, Limits, Pool, Query, Tries};
use common::{login, put};
use cut::{Cut, WHOLE};
use server::Server;
use std::error::Error as _;
use std::io::{self, Read, Write};
use std::net::{Shutdown, TcpListener, TcpStream};
use std::sync::atomic::{AtomicU64, AtomicUsize, Ordering};
use std::sync::{Arc, Barrier};
use std::thread;
use std::time::{Duration, Instant};

const WORKERS: usize = 8;
const TRANSFERS: usize = 60;

/// Returns a key or a token that no other run of these tests uses.
fn own(name: &str) -> String {
    format!("pool {} {name}", std::process::id())
}

fn get(key: &str) -> Query {
    Query::from("GET").param("key", key)
}

/// Returns a pool of connections that aren't cut, and a count of the streams that it opens.
fn pool(server: &Server, limits: Limits) -> (Pool<Cut>, Arc<AtomicUsize>) {
    let opened = Arc::new(AtomicUsize::new(0));
    let (port, count) = (server.port, Arc::clone(&opened));
    let connect = move || {
        count.fetch_add(1, Ordering::Relaxed);
        cut::connect(port, WHOLE, WHOLE)
    };
    (Pool::new(login(), limits, connect), opened)
}

fn limits(most: usize, wait: u64) -> Limits {
    Limits { most, wait: Duration::from_millis(wait), ..Limits::default() }
}

/// Returns the number of the entry that a query adds to the server's ledger.
fn entry(connection: &mut Connection<Cut>) -> u64 {
    let bookmark = connection.run(&Query::from("ONE")).unwrap().bookmark.unwrap();
    bookmark.split(':').nth(1).unwrap().parse().unwrap()
}

/// Returns a random number below `end`, from a seed that changes with each call.
fn random(seed: &AtomicU64, end: u64) -> u64 {
    let mut it = seed.fetch_add(0x9E37_79B9_7F4A_7C15, Ordering::Relaxed);
    it = (it ^ it >> 30).wrapping_mul(0xBF58_476D_1CE4_E5B9);
    it = (it ^ it >> 27).wrapping_mul(0x94D0_49BB_1331_11EB);
    (it ^ it >> 31) % end
}

/// Passes bytes on, at most so many, and then ends both streams.
fn pass(mut from: TcpStream, mut to: TcpStream, mut left: usize) {
    let mut piece = [0; 512];
    while left > 0 {
        let room = left.min(piece.len());
        let count = from.read(&mut piece[..room]).unwrap_or(0);
        if count == 0 || to.write_all(&piece[..count]).is_err() {
            break;
        }
        left -= count;
    }
    for stream in [from, to] {
        // (the other direction may have ended it)
        let _ = stream.shutdown(Shutdown::Both);
    }
}

/// A proxy to a port that ends each stream after a random number of bytes, in one of the directions. It listens as long
/// as the test runs.
struct Proxy {
    port: u16,
    /// The number of streams so far.
    streams: Arc<AtomicUsize>,
}

impl Proxy {
    fn start(to: u16) -> Proxy {
        let listener = TcpListener::bind(("127.0.0.1", 0)).unwrap();
        let proxy = Proxy { port: listener.local_addr().unwrap().port(), streams: Arc::default() };
        let (streams, seed) = (Arc::clone(&proxy.streams), AtomicU64::new(1));
        thread::spawn(move || {
            for client in listener.incoming() {
                let (client, server) = (client.unwrap(), TcpStream::connect(("127.0.0.1", to)).unwrap());
                streams.fetch_add(1, Ordering::Relaxed);
                let (is_told, at) = (random(&seed, 2) == 0, random(&seed, 1_500) as usize);
                let (told, asked) = if is_told { (at, WHOLE) } else { (WHOLE, at) };
                for stream in [&client, &server] {
                    stream.set_nodelay(true).unwrap();
                }
                let other = (server.try_clone().unwrap(), client.try_clone().unwrap());
                thread::spawn(move || pass(client, server, asked));
                thread::spawn(move || pass(other.0, other.1, told));
            }
        });
        proxy
    }
}

#[test]
fn each_transfer_of_eight_threads_over_random_cuts_is_committed_once() {
    let Some(server) = Server::start() else { return };
    let proxy = Proxy::start(server.port);
    let port = proxy.port;
    let pool = Pool::new(login(), limits(4, 30_000), move || cut::connect(port, WHOLE, WHOLE));
    let mut observer = server.open();
    observer.run(&put(&own("amount"))).unwrap();
    let before = entry(&mut observer);
    let (pool, again) = (&pool, &AtomicUsize::new(0));
    thread::scope(|scope| {
        for worker in 0..WORKERS {
            scope.spawn(move || {
                for number in 0..TRANSFERS {
                    let key = own(&format!("{worker} {number}"));
                    let tries = Tries { most: 200, pause: Duration::from_micros(100), ..Tries::under(&key) };
                    let known = pool.work_until_known(&tries, |transaction| {
                        let (amount,): (i64,) = transaction.run(&get(&own("amount")))?.first()?.unwrap();
                        transaction.run(&Query::from("PUT").param("key", &key).param("value", amount + 1))?;
                        Ok(amount)
                    });
                    let known = known.unwrap();
                    assert_eq!((known.fate, known.value), (Fate::Stands, Some(1)), "{key}: {:?}", known.error);
                    again.fetch_add(usize::from(known.error.is_some()), Ordering::Relaxed);
                }
            });
        }
    });
    // Each query of the observer adds an entry too.
    let after = entry(&mut observer);
    assert_eq!(after - before, (WORKERS * TRANSFERS) as u64 + 1, "entries of the ledger");
    for (worker, number) in (0..WORKERS).flat_map(|worker| (0..TRANSFERS).map(move |number| (worker, number))) {
        let found = observer.run(&get(&own(&format!("{worker} {number}")))).unwrap().first::<(i64,)>();
        assert_eq!(found.unwrap(), Some((2,)), "{worker} {number}");
    }
    let (streams, again) = (proxy.streams.load(Ordering::Relaxed), again.load(Ordering::Relaxed));
    assert!(streams > 50 && again > 50, "{streams} streams, and {again} transfers were tried again");
}

#[test]
fn number_of_connections_is_bounded_and_a_wait_has_an_end() {
    let Some(server) = Server::start() else { return };
    let (short, _) = pool(&server, limits(2, 50));
    let _held = (short.get().unwrap(), short.get().unwrap());
    let begun = Instant::now();
    assert_eq!(short.get().err().map(|it| it.kind()), Some(ErrorKind::Busy));
    assert!(begun.elapsed() >= Duration::from_millis(50));
    // A connection that comes back in time goes to the thread that waits for it.
    let (pool, opened) = pool(&server, limits(2, 30_000));
    let (pool, barrier) = (&pool, &Barrier::new(2));
    thread::scope(|scope| {
        scope.spawn(move || {
            let held = (pool.get().unwrap(), pool.get().unwrap());
            barrier.wait();
            thread::sleep(Duration::from_millis(10));
            drop(held);
        });
        barrier.wait();
        pool.get().unwrap().run(&get("a")).unwrap();
    });
    assert_eq!(opened.load(Ordering::Relaxed), 2);
}

#[test]
fn connections_that_cannot_be_used_again_are_closed() {
    let Some(server) = Server::start() else { return };
    type Use = fn(&mut Connection<Cut>);
    let uses: [(&str, usize, Use); 6] = [
        ("it is idle", 0, |it| drop(it.run(&get("a")).unwrap())),
        ("a query was refused", 0, |it| drop(it.run(&Query::from("NOPE")).unwrap_err())),
        ("a transaction was dropped", 0, |it| drop(it.begin(None).unwrap())),
        ("a transaction is open", 1, |it| std::mem::forget(it.begin(None).unwrap())),
        ("something isn't settled", 1, |it| assert_eq!(0, it.ask_begin(true, None).unwrap())),
        // All idle connections are closed with it.
        ("it has ended", 2, |it| {
            it.stream().stream.shutdown(Shutdown::Both).unwrap();
            drop(it.run(&get("a")).unwrap_err());
        }),
    ];
    for (why, closed, work) in uses {
        let (pool, opened) = pool(&server, limits(2, 30_000));
        drop((pool.get().unwrap(), pool.get().unwrap()));
        work(&mut pool.get().unwrap());
        let mut again = (pool.get().unwrap(), pool.get().unwrap());
        again.0.run(&get("a")).unwrap();
        again.1.run(&get("a")).unwrap();
        assert_eq!(opened.load(Ordering::Relaxed), 2 + closed, "{why}");
    }
}

#[test]
fn connection_that_was_idle_for_long_is_replaced() {
    let Some(server) = Server::start() else { return };
    for (idle, wanted) in [(Duration::ZERO, 2), (Duration::from_secs(30), 1)] {
        let (pool, opened) = pool(&server, Limits { idle, ..limits(1, 30_000) });
        drop(pool.get().unwrap());
        thread::sleep(Duration::from_millis(2));
        drop(pool.get().unwrap());
        assert_eq!(opened.load(Ordering::Relaxed), wanted, "{idle:?}");
    }
}

#[test]
fn place_is_free_again_after_a_connection_could_not_be_opened() {
    let tried = AtomicUsize::new(0);
    let pool = Pool::new(login(), limits(1, 0), move || -> io::Result<Cut> {
        let count = tried.fetch_add(1, Ordering::Relaxed);
        assert!(count % 2 == 0, "connect panics");
        Err(io::ErrorKind::ConnectionRefused.into())
    });
    for _ in 0..3 {
        let error = pool.get().err().unwrap();
        assert!(matches!(error, Error::Broken { ref requests, .. } if requests.is_empty()), "{error:?}");
        assert!(error.source().unwrap().is::<io::Error>());
        assert!(std::panic::catch_unwind(std::panic::AssertUnwindSafe(|| pool.get().map(drop))).is_err());
    }
    let tries = Tries { most: 1, ..Tries::under("t") };
    let known = pool.work_until_known(&tries, |_| Ok(())).unwrap();
    assert_eq!((known.fate, known.error.unwrap().kind()), (Fate::Absent, ErrorKind::Broken));
}
