//! The program on the samples: packed, shown, edited, refused.

use std::path::PathBuf;
use std::process::{Command, Output};

fn root() -> PathBuf {
    PathBuf::from(env!("CARGO_MANIFEST_DIR")).join("..")
}

fn yard(words: &[&str]) -> Output {
    Command::new(env!("CARGO_BIN_EXE_yard")).args(words).current_dir(root()).output().expect("the program runs")
}

fn printed(words: &[&str]) -> String {
    let output = yard(words);
    assert!(output.status.success(), "{}", String::from_utf8_lossy(&output.stderr));
    String::from_utf8(output.stdout).unwrap()
}

fn scratch(name: &str) -> String {
    PathBuf::from(env!("CARGO_TARGET_TMPDIR")).join(name).to_str().unwrap().to_string()
}

const TABLE: &str = "samples/yard.table";
const MESSAGE: &str = "samples/yard.hex";

#[test]
fn the_stored_message_is_the_packed_settings() {
    let packed = scratch("packed.hex");
    printed(&["pack", TABLE, "samples/yard.settings", &packed]);
    let stored = std::fs::read_to_string(root().join(MESSAGE)).unwrap();
    assert_eq!(std::fs::read_to_string(packed).unwrap(), stored);
}

#[test]
fn what_is_shown_packs_to_the_same_message() {
    let (settings, again) = (scratch("shown.settings"), scratch("again.hex"));
    std::fs::write(&settings, printed(&["show", TABLE, MESSAGE])).unwrap();
    printed(&["pack", TABLE, &settings, &again]);
    let stored = std::fs::read_to_string(root().join(MESSAGE)).unwrap();
    assert_eq!(std::fs::read_to_string(again).unwrap(), stored);
}

#[test]
fn one_limit_changes_and_nothing_else() {
    let after = scratch("after.hex");
    let report = printed(&["edit", TABLE, MESSAGE, "renters.0.alarm.limit", "256", &after]);
    assert!(report.contains("at octet 122: 01 FF became 02 01 00\nno presence bit changed\n"), "{report}");
    assert!(report.contains("- renters.0.alarm.limit = 255\n  + renters.0.alarm.limit = 256\n49 settings stayed"));
    assert!(!report.contains('\x1b'), "no colour if the output is no terminal");
    let (old, new) = (printed(&["show", TABLE, MESSAGE]), printed(&["show", TABLE, &after]));
    let neighbour = |text: &str| text.lines().filter(|l| l.starts_with("renters.1.")).map(String::from).collect();
    let (old, new): (Vec<String>, Vec<String>) = (neighbour(&old), neighbour(&new));
    assert_eq!(old, new);
    assert_eq!(old.len(), 8);
}

#[test]
fn presence_bits() {
    let gone = scratch("gone.hex");
    let report = printed(&["edit", TABLE, MESSAGE, "heads.1.overload", "absent", &gone]);
    assert!(report.contains("one presence bit") && report.contains("+ heads.1.overload = absent"), "{report}");
    let report = printed(&["edit", TABLE, MESSAGE, "nightShift", "false"]);
    assert!(report.contains("FF became nothing\nat octet 0: one presence bit"), "{report}");
    let report = printed(&["edit", TABLE, MESSAGE, "renters.1.note", "\"quiet after 22:00\""]);
    assert!(report.contains("nothing became 11 71"), "{report}");
}

#[test]
fn refusals_say_what_and_where() {
    let refused = |words: &[&str], says: &str| {
        let output = yard(words);
        let why = String::from_utf8(output.stderr).unwrap();
        assert_eq!(output.status.code(), Some(1), "{why}");
        assert!(why.starts_with("refused: ") && why.contains(says), "{why}");
        assert!(output.stdout.is_empty());
    };
    refused(&["show", TABLE, "samples/broken.hex"], "in the message at octet");
    refused(&["edit", TABLE, MESSAGE, "heads.0.zeroBand.low", "-1001"], "7 (NOT ALLOWED)");
    refused(&["edit", TABLE, MESSAGE, "renters.3.hopper", "1"], "13 (PATH)");
    refused(&["edit", TABLE, MESSAGE, "renters.0.name", "absent"], "11 (LIST)");
    refused(&["edit", TABLE, MESSAGE, "renters.0.price", "1"], "there is no price");
    refused(&["edit", TABLE, MESSAGE, "renters.0.hopper", "many"], "a whole number from 0 on");
    refused(&["show", MESSAGE, MESSAGE], "samples/yard.hex: line 1");
    assert_eq!(yard(&["help"]).status.code(), Some(2));
}
