//! The code in docs/INTEGRATING.md stands in the examples, line by line.

use std::fs;
use std::path::Path;

fn lines_of(file: &str) -> Vec<String> {
    let file = Path::new(env!("CARGO_MANIFEST_DIR")).join(file);
    let text = fs::read_to_string(file).unwrap();
    text.lines().map(str::to_string).collect()
}

#[test]
fn quotes_stand_in_the_examples() {
    let text = lines_of("../docs/INTEGRATING.md").join("\n");
    let mut quotes = 0;
    for (fence, file) in [("```rust\n", "kernel.rs"), ("```c\n", "kernel.c")] {
        let example = lines_of(&format!("examples/{file}"));
        for quote in text.split(fence).skip(1) {
            let quote = quote.split("\n```").next().unwrap();
            let lines: Vec<_> = quote.lines().collect();
            let found = example.windows(lines.len()).any(|window| window == lines);
            assert!(found, "not in {file}:\n{quote}");
            quotes += 1;
        }
    }
    assert!(quotes > 0);
}
