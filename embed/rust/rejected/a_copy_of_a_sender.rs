// rejected: no method named `clone` found for struct `Sender
fn main() {
    tower::open(&[1], 2, |t| t.sender(t.buffer(0).unwrap()).unwrap().clone().close().unwrap()).unwrap();
}
