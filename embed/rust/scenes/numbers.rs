//! Two producers and a consumer, by halves; then each error, bytes, and what is left.
use std::thread;
use tower::{Error, Received};

fn produced() {
    let (seen, left) = tower::open(&[4], 3, |t| {
        let numbers = t.buffer(0).expect("a buffer");
        let from = t.receiver(numbers).expect("a caller");
        let senders = [t.sender(numbers).expect("a caller"), t.sender(numbers).expect("a caller")];
        assert_eq!(t.caller().err(), Some(Error::NoCaller));
        thread::scope(|s| {
            let threads: Vec<_> = senders
                .into_iter()
                .enumerate()
                .map(|(me, mut to)| {
                    s.spawn(move || {
                        for number in 0..1000u64 {
                            to.send(&[me as u64, number]).expect("open");
                        }
                        to
                    })
                })
                .collect();
            let seen = s.spawn(move || {
                let mut seen = [Vec::new(), Vec::new()];
                from.for_each(|message| seen[message[0] as usize].push(message[1]));
                seen
            });
            let mut last = threads.into_iter().map(|it| it.join().expect("a sender")).last().expect("two");
            last.close().expect("open");
            assert_eq!(last.send(&[1]), Err(Error::Closed));
            seen.join().expect("a receiver")
        })
    })
    .expect("a tower");
    let all: Vec<u64> = (0..1000).collect();
    assert!(seen[0] == all && seen[1] == all && left[0].is_empty());
}

fn each_error() {
    for (capacities, callers, error) in
        [(&[33][..], 1, Error::BadCapacity), (&[1; 17], 1, Error::BadBuffers), (&[1], 0, Error::BadCallers), (&[1], 17, Error::BadCallers)]
    {
        assert_eq!(tower::open(capacities, callers, |_| ()).err(), Some(error));
        assert!(!error.to_string().is_empty() && !error.to_string().contains("unknown"));
    }
    let forgotten = tower::open(&[1], 1, |t| std::mem::forget(t.caller()));
    assert_eq!(forgotten.err(), Some(Error::NotLeft));
}

fn bytes_and_left() {
    let (length, left) = tower::open(&[3, 1], 1, |t| {
        let (first, second) = (t.buffer(0).expect("a buffer"), t.buffer(1).expect("a buffer"));
        assert!(t.buffer(2).is_none());
        let mut caller = t.caller().expect("a caller");
        assert_eq!(caller.send_bytes(first, b""), Err(Error::NoBytes));
        assert_eq!(caller.send_bytes(first, &[0; 64]), Err(Error::TooLong));
        caller.send_bytes(first, b"eleven here").expect("open");
        caller.send(first, &[5, 6]).expect("open");
        caller.send(second, &[7]).expect("open");
        assert_eq!(t.left(first), Ok(2));
        let Ok(Received::Bytes(text)) = caller.recv_bytes(first) else { panic!("no bytes") };
        let Ok(Received::Words(words)) = caller.recv_bytes(first) else { panic!("no words") };
        assert!(*text == *b"eleven here" && *words == [5, 6]);
        text.len()
    })
    .expect("a tower");
    assert!(length == 11 && left[0].is_empty() && *left[1][0] == [7]);
}

/// Copies of halves, each with a caller of its own, until there are no more callers; an error as `?` passes it on.
fn copies() -> Result<(), Box<dyn std::error::Error>> {
    let (sum, _) = tower::open(&[2], 5, |t| {
        let buffer = t.buffer(0).expect("a buffer");
        let (to, from) = (t.sender(buffer)?, t.receiver(buffer)?);
        let (froms, tos) = ([from.try_clone()?, from], [to.try_clone()?, to.try_clone()?, to]);
        assert_eq!(tos[2].try_clone().err(), Some(Error::NoCaller));
        let sum = thread::scope(|s| {
            let receivers = froms.map(|from| s.spawn(move || from.map(|message| message[0]).sum::<u64>()));
            let senders = tos.map(|mut to| s.spawn(move || (1..=40u64).try_for_each(|k| to.send(&[k])).map(|()| to)));
            let mut ends = senders.map(|it| it.join().expect("a sender"));
            ends[0].as_mut().expect("open").close().expect("open");
            receivers.map(|it| it.join().expect("a receiver")).iter().sum::<u64>()
        });
        Ok::<_, Error>(sum)
    })?;
    assert_eq!(sum?, 3 * 820);
    Err(tower::open(&[0], 1, |_| ()).unwrap_err())?
}

fn a_panic_shuts_the_tower() {
    let hook = std::panic::take_hook();
    std::panic::set_hook(Box::new(|_| ()));
    for _ in 0..50 {
        assert!(std::panic::catch_unwind(|| tower::open(&[1], 2, |t| t.caller().map(|_| panic!("meant")))).is_err());
    }
    std::panic::set_hook(hook);
}

fn main() {
    produced();
    each_error();
    bytes_and_left();
    assert_eq!(copies().map_err(|it| it.to_string()), Err(Error::BadCapacity.to_string()));
    a_panic_shuts_the_tower();
    println!("rust: all as wanted");
}
