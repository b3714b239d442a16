// rejected: the trait bound `[{integer}; 9]: Words` is not satisfied
fn main() {
    tower::open(&[1], 1, |t| t.caller().unwrap().send(t.buffer(0).unwrap(), &[0; 9])).unwrap().0.unwrap();
}
