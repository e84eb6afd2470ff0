//! docs/TRAFFIC.md shows the examples as they are played here.

const PAGE: &str = concat!(env!("CARGO_MANIFEST_DIR"), "/../docs/TRAFFIC.md");

fn indented(text: &str) -> String {
    let lines = text.lines().map(|line| format!("    {line}\n"));
    lines.collect()
}

#[test]
fn examples_of_the_page() {
    let page = std::fs::read_to_string(PAGE).expect("the page");
    let parts = [
        include_str!("example.log"),
        include_str!("messages.hex"),
        include_str!("messages.log"),
        include_str!("sessions.hex"),
        include_str!("sessions.log"),
    ];
    for part in parts {
        assert!(page.contains(&indented(part)), "{part}");
    }
}
