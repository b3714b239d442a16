// rejected: borrowed data escapes outside of closure
fn main() {
    tower::open(&[1], 1, |t| {
        tower::open(&[1, 1], 1, |u| t.caller().unwrap().close(u.buffer(1).unwrap()).unwrap()).unwrap();
    })
    .unwrap();
}
