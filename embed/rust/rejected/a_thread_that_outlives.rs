// rejected: borrowed data escapes outside of closure
fn main() {
    tower::open(&[1], 1, |t| {
        let mut c = t.caller().unwrap();
        let b = t.buffer(0).unwrap();
        std::thread::spawn(move || c.recv(b));
    })
    .unwrap();
}
