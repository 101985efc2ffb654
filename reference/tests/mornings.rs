//! The scripts in mornings/ say behind the # of a line what reply it gets; here they are held to it.

use std::path::Path;

use reference::script::{Answer, Player};

#[test]
fn the_mornings_get_the_replies_that_they_promise() {
    let folder = Path::new(env!("CARGO_MANIFEST_DIR")).join("../mornings");
    let mut files = 0;
    let mut promises = 0;
    for entry in std::fs::read_dir(folder).expect("the folder mornings") {
        let path = entry.expect("a file").path();
        let bytes = std::fs::read(&path).expect("a script");
        assert!(bytes.starts_with(b"# "), "{path:?} begins with a comment");
        files += 1;
        let mut player = Player::new();
        for line in bytes.split(|byte| *byte == b'\n') {
            let answer = player.line(line);
            let text = String::from_utf8_lossy(line);
            let text = text.split(" -- ").next().unwrap_or("");
            let promise = text.rsplit_once("# ").map_or("", |(_, promise)| promise);
            let wanted = match &answer {
                Answer::Skipped | Answer::Lent => continue,
                // The long line of bad-lines.txt has no room for a promise.
                Answer::Bad(_, fault) if fault.to_string() == "line too long" => continue,
                Answer::Bad(_, fault) => fault.to_string(),
                Answer::Shown(_) => {
                    let words = ["no", "one", "two", "three", "four"];
                    let count = words[answer.lines().len()];
                    assert!(promise.starts_with(count), "{path:?}: {text}");
                    continue;
                }
                other => other.lines().concat(),
            };
            assert_eq!(promise.trim_end(), wanted, "{path:?}: {text}");
            promises += 1;
        }
    }
    assert!(files >= 8 && promises > 150, "{files} {promises}");
}

/// The example that docs/SCRIPT.md gives is answered as it says: the second block of it that is set in, and the
/// third.
#[test]
fn the_example_of_the_script_page() {
    let page = Path::new(env!("CARGO_MANIFEST_DIR")).join("../docs/SCRIPT.md");
    let text = std::fs::read_to_string(page).expect("docs/SCRIPT.md");
    let mut blocks: Vec<Vec<&str>> = vec![Vec::new()];
    for line in text.lines() {
        match line.strip_prefix("    ") {
            Some(inner) => blocks.last_mut().expect("one is there").push(inner),
            None if blocks.last().is_some_and(|block| !block.is_empty()) => blocks.push(Vec::new()),
            None => {}
        }
    }
    let mut player = Player::new();
    let mut replies = Vec::new();
    for line in &blocks[1] {
        replies.extend(player.line(line.as_bytes()).lines());
    }
    assert_eq!(replies, blocks[2]);
    assert!(replies.len() > 5);
}
