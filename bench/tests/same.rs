//! The servers that are measured give the same answers and bytes as the independent one, call by call.

use bench::server::{Server, OUTPUT};
use bench::service::{Service, Told};
use reference::call::Call;
use reference::craft::{dotted, stretched};
use reference::generate::Generator;
use reference::server;

/// A server with its own output slice, which keeps what earlier calls left in it.
struct Held<S: Service> {
    server: S,
    out: Vec<u8>,
}

impl<S: Service> Held<S> {
    fn new(zone: &[u8]) -> Held<S> {
        let server = S::start(zone).unwrap_or_else(|number| panic!("{} refuses the zone with {number}", S::NAME));
        Held { server, out: vec![0xa5; OUTPUT + 3] }
    }

    fn call(&mut self, call: &Call, room: usize) -> Told {
        S::told(&self.server.call(call, &mut self.out[..room]))
    }
}

fn run<S: Service>(seed: u64, zone: &[u8], calls: usize) -> [usize; 21] {
    let mut expected: Held<server::Server> = Held::new(zone);
    let mut tried: Held<S> = Held::new(zone);
    let mut generator = Generator::new(seed, zone);
    let mut seen = [0; 21];
    for number in 0..calls {
        let call =
            if number % 1000 == 999 { generator.longest(&expected.server) } else { generator.next(&expected.server) };
        let room = if generator.random.once_in(50) { OUTPUT - generator.random.below(3) } else { OUTPUT + 3 };
        let want = expected.call(&call, room);
        let got = tried.call(&call, room);
        assert_eq!(got, want, "{}, seed {seed}, call {number}: {call:?}", S::NAME);
        assert!(tried.out == expected.out, "{}, seed {seed}, call {number}: output of {call:?}", S::NAME);
        seen[want.number as usize] += 1;
    }
    seen
}

/// Runs in several zones; every answer that a call can have comes up.
fn same<S: Service>() {
    let zones = [dotted("shop.example"), vec![0], stretched(&dotted("shop.example"), 250, b'z')];
    let mut seen = [0; 21];
    for (index, zone) in zones.iter().enumerate() {
        for seed in 0..8 {
            let more = run::<S>(100 * index as u64 + seed, zone, 10_000);
            (0..21).for_each(|number| seen[number] += more[number]);
        }
    }
    let missing: Vec<usize> = (1..=5).chain(10..=18).filter(|number| seen[*number] == 0).collect();
    assert!(missing.is_empty(), "no call was answered with {missing:?}: {seen:?}");
    for bad in [&[][..], &[1], &[64], &[0, 0], &[3, b'a', b'b', 0]] {
        assert_eq!(S::start(bad).err(), Some(20), "{} on {bad:?}", S::NAME);
    }
}

fn same_kinds<S: Service>() {
    let mut generator = Generator::new(5, &dotted("shop.example"));
    let mut server = server::Server::start(&dotted("shop.example")).expect("a zone");
    let mut seen = [0; 48];
    for _ in 0..100_000 {
        let call = generator.next(&server);
        server.call(&call);
        if let Call::Message { bytes, .. } = call {
            let want = reference::message::kind(&bytes);
            assert_eq!(S::kind(&bytes), want, "{}: {bytes:?}", S::NAME);
            seen[want as usize] += 1;
        }
    }
    assert!(seen[40..48].iter().all(|count| *count > 0), "{seen:?}");
    assert_eq!(S::kind(&vec![0; 65_536]), 18);
}

#[test]
fn plain_is_the_same() {
    same::<Server<false>>();
    same_kinds::<Server<false>>();
}

#[test]
fn incremental_is_the_same() {
    same::<Server<true>>();
    same_kinds::<Server<true>>();
}

#[cfg(feature = "proved")]
#[test]
fn proved_is_the_same() {
    same::<bench::proved::Proved>();
    same_kinds::<bench::proved::Proved>();
}
