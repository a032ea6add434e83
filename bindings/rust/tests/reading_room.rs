//! The example prints what is kept of its output.

#[allow(dead_code)]
#[path = "../examples/reading_room.rs"]
mod reading_room;

#[test]
fn prints_what_is_kept() {
    let mut printed = Vec::new();
    reading_room::run(&mut printed).unwrap();
    assert_eq!(String::from_utf8(printed).unwrap(), include_str!("../examples/reading_room.stdout"));
}
