//! The repository's own layouts are read and come back the same.

use flascjuvan::{print, print_short, read, Grammar, Level};

#[test]
fn layouts_are_read_and_come_back_the_same() {
    let folder = std::path::Path::new(env!("CARGO_MANIFEST_DIR")).join("../../layouts");
    let mut seen = 0;
    for file in std::fs::read_dir(folder).expect("the layouts") {
        let path = file.expect("a file").path();
        // camera lines stand beside them
        if path.extension() != Some("pest".as_ref()) {
            continue;
        }
        let text = std::fs::read(path).expect("a layout's text");
        let grammar = read(&text, Level::Tagged).expect("a layout is read");
        for printer in [print, print_short] {
            let once = printer(&grammar).expect("what was read prints");
            let again: Grammar = once.parse().expect("what was printed is read");
            assert!(again.same(&grammar));
            assert_eq!(printer(&again), Ok(once));
        }
        seen += 1;
    }
    assert!(seen >= 3);
}
