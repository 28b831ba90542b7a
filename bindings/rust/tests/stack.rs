use std::thread;

use lekhyundo::{MOST_STACK, Reader, Refusal, constant, print, salvage};

/// The source that takes most stack of all that the limits let stand; `tools/stack` found it.
const DEEPEST: &[u8] = include_bytes!("../../../vectors/deepest");

#[test]
fn the_deepest_source_fits_the_stack_that_is_said_to_be_enough() {
    let mut reader = Reader::default();
    let end = Refusal { number: 11, start: DEEPEST.len(), end: DEEPEST.len(), needed: 0 };
    let dropped = || salvage(DEEPEST).ok().and_then(|salvage| Some(salvage.dropped.first()?.refusal));
    let read = move || ([reader.tree(DEEPEST).err(), constant(DEEPEST, 0).err(), print(DEEPEST).err(), dropped()], end.message(DEEPEST));
    let (refused, message) = thread::Builder::new().stack_size(MOST_STACK).spawn(read).unwrap().join().unwrap();
    assert_eq!(refused, [Some(end); 4]);
    assert!(message.starts_with("the file ends too early\n"), "{message}");
}
