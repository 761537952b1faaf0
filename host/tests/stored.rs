//! The stored scripts print what is stored, each under its name.

use std::path::Path;

#[test]
fn stored_scripts_print_what_is_stored() {
    let folder = Path::new(env!("CARGO_MANIFEST_DIR")).join("../crates/replay");
    let names = std::fs::read_to_string(folder.join("args")).expect("the names");
    let mut rest = std::fs::read_to_string(folder.join("stdout")).expect("what is stored");
    for name in names.lines() {
        let script = std::fs::read(folder.join("data").join(name)).expect("a script");
        let printed = format!("{name}\n{}", host::replay::run(&script));
        assert!(rest.starts_with(&printed), "{name} prints something else");
        rest = rest.split_off(printed.len());
    }
    assert!(rest.is_empty());
    assert!(names.lines().count() > 20);
}

#[test]
fn the_example_of_the_format_page() {
    let page = std::fs::read_to_string(Path::new(env!("CARGO_MANIFEST_DIR")).join("../docs/REPLAY.md")).expect("the page");
    let example = page.split("## An example").nth(1).expect("the section").split("\n## ").next().expect("its text");
    let (script, printed) = example.split_once("\nprints\n").expect("two parts");
    assert_eq!(host::replay::run(indented(script).as_bytes()), indented(printed));
}

fn indented(text: &str) -> String {
    text.lines().filter_map(|line| line.strip_prefix("    ")).map(|line| format!("{line}\n")).collect()
}
