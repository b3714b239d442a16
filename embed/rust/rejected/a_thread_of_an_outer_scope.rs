// rejected: borrowed data escapes outside of closure
fn main() {
    std::thread::scope(|s| {
        tower::open(&[1], 1, |t| {
            let mut from = t.receiver(t.buffer(0).unwrap()).unwrap();
            s.spawn(move || from.recv());
        })
        .unwrap();
    });
}
