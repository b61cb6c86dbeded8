//! Each public type has an example in its documentation, which `cargo test` runs.

#[test]
fn each_public_type_has_an_example() {
    let (mut types, mut lacking) = (0, Vec::new());
    for file in std::fs::read_dir(concat!(env!("CARGO_MANIFEST_DIR"), "/src")).unwrap() {
        let text = std::fs::read_to_string(file.unwrap().path()).unwrap();
        let mut has_example = false;
        for line in text.lines() {
            if ["struct ", "enum ", "trait ", "type "].iter().any(|it| line.strip_prefix("pub ").is_some_and(|rest| rest.starts_with(it))) {
                types += 1;
                if !has_example {
                    lacking.push(line.to_string());
                }
            }
            has_example = (has_example || line.starts_with("/// ```")) && (line.starts_with("///") || line.starts_with("#["));
        }
    }
    assert_eq!((types > 10, lacking), (true, Vec::new()));
}

#[path = "../examples/orders.rs"]
mod orders;

#[test]
fn the_example_does_what_it_says() {
    let room = std::env::temp_dir().join(format!("vahondrisa-orders-{}", std::process::id()));
    let (rows, count) = orders::run(&room.join("store")).unwrap();
    assert_eq!((rows, count), ((1_000..1_010).collect::<Vec<_>>(), 40));
    std::fs::remove_dir_all(room).unwrap();
}
