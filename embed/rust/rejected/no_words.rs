// rejected: the trait bound `[{integer}; 0]: Words` is not satisfied
fn main() {
    tower::open(&[1], 1, |t| t.caller().unwrap().send(t.buffer(0).unwrap(), &[0; 0])).unwrap().0.unwrap();
}
