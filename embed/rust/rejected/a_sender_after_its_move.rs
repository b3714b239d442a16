// rejected: borrow of moved value: `to`
fn main() {
    tower::open(&[1], 1, |t| {
        let mut to = t.sender(t.buffer(0).unwrap()).unwrap();
        std::thread::scope(|s| {
            s.spawn(move || to.send(&[1]));
            to.close().unwrap();
        });
    })
    .unwrap();
}
