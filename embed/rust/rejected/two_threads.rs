// rejected: cannot borrow `c` as mutable more than once at a time
fn main() {
    tower::open(&[1], 1, |t| {
        let b = t.buffer(0).unwrap();
        let mut c = t.caller().unwrap();
        std::thread::scope(|s| {
            s.spawn(|| c.recv(b));
            s.spawn(|| c.close(b));
        });
    })
    .unwrap();
}
