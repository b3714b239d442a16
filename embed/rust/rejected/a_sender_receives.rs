// rejected: no method named `recv` found for struct `Sender
fn main() {
    tower::open(&[1], 1, |t| t.sender(t.buffer(0).unwrap()).unwrap().recv().unwrap()).unwrap();
}
