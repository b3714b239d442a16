// rejected: no method named `clone` found for struct `Caller
fn main() {
    tower::open(&[1], 2, |t| {
        let c = t.caller().unwrap();
        let mut other = c.clone();
        other.close(t.buffer(0).unwrap()).unwrap();
    })
    .unwrap();
}
