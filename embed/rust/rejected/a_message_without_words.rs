// rejected: private
fn main() {
    let none = tower::Message { count: 9, words: [0; 8] };
    tower::open(&[1], 1, |t| t.caller().unwrap().send(t.buffer(0).unwrap(), &none)).unwrap().0.unwrap();
}
