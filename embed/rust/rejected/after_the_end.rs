// rejected: lifetime may not live long enough
fn main() {
    let (mut c, _) = tower::open(&[1], 1, |t| t.caller().unwrap()).unwrap();
    drop(&mut c);
}
