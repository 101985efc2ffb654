//! What `include/lawqendo.h` defines, read from the file itself.

use std::collections::BTreeMap;
use std::path::Path;

const PREFIX: &str = "LAWQENDO_";

/// A file of the repository, named from its top.
pub fn file(name: &str) -> String {
    let path = Path::new(env!("CARGO_MANIFEST_DIR")).join("..").join(name);
    std::fs::read_to_string(path).unwrap_or_else(|error| panic!("{name}: {error}"))
}

/// The header's numbers, by their names without `LAWQENDO_`: `#define NAME NUMBER`, and `NAME = NUMBER` in an enumeration. A macro
/// with an argument, `#define NAME(i) (A + B * (i))`, is told by its values at 0 and 1, under the names `NAME(0)` and `NAME(1)`.
pub fn numbers() -> BTreeMap<String, u64> {
    numbers_of(&file("include/lawqendo.h"))
}

/// The numbers of a header's text.
pub fn numbers_of(text: &str) -> BTreeMap<String, u64> {
    let mut numbers = BTreeMap::new();
    for line in text.lines() {
        let words: Vec<&str> = line.split([' ', ',']).filter(|w| !w.is_empty()).collect();
        let (name, value) = match words[..] {
            ["#define", name, ..] => (name, &words[2..]),
            [name, "=", ..] => (name, &words[2..]),
            _ => continue,
        };
        let Some(name) = name.strip_prefix(PREFIX) else {
            continue;
        };
        if let Some(name) = name.strip_suffix("(i)") {
            let (first, more) = linear(value).unwrap_or_else(|| panic!("{line}"));
            numbers.insert(format!("{name}(0)"), first);
            numbers.insert(format!("{name}(1)"), first + more);
        } else if let Some(number) = value.first() {
            let number = number.parse().unwrap_or_else(|_| panic!("{line}"));
            numbers.insert(name.to_string(), number);
        }
    }
    numbers
}

/// A and B of `(A + B * (i))`.
fn linear(value: &[&str]) -> Option<(u64, u64)> {
    match value {
        [first, "+", more, "*", "(i))"] => {
            let first = first.strip_prefix('(')?;
            Some((first.parse().ok()?, more.parse().ok()?))
        }
        _ => None,
    }
}

/// The numbers of what is answered, as the dispatcher's crate `numbers` has them: `pub const NAME: u32 = NUMBER;`.
pub fn answers() -> BTreeMap<String, u64> {
    let text = file("crates/numbers/src/answers.rt");
    let of_line = |line: &str| {
        let (name, number) = line
            .strip_prefix("pub const ")?
            .strip_suffix(';')?
            .split_once(": u32 = ")?;
        Some((name.to_string(), number.parse().ok()?))
    };
    text.lines().filter_map(of_line).collect()
}
