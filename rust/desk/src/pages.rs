//! The pages of `--help` and `--version`.

use crate::help::{Command, ABOUT, COMMANDS, FILES, NAME, STATUS, SUMMARY};

/// The page of `--help`.
pub fn help() -> String {
    let mut page = format!("{NAME}: {SUMMARY}\n\n");
    put_paragraphs(&mut page, ABOUT);
    for command in COMMANDS {
        page.push_str(&format!("  {NAME} {}\n", command.usage()));
        put_folded(&mut page, command.does, 6);
    }
    page.push_str(&format!(
        "  {NAME} COMMAND --help\n      more about a command\n  {NAME} --version\n      what this is, and how it was built\n\n"
    ));
    put_paragraphs(&mut page, FILES);
    page.push_str("Status:\n");
    put_paragraphs(&mut page, STATUS);
    page.truncate(page.trim_end().len());
    page.push('\n');
    page
}

/// The page of a command's `--help`.
pub fn help_on(command: &Command) -> String {
    let mut page = format!("usage: {NAME} {}\n\n", command.usage());
    put_folded(&mut page, &sentence(command.does), 0);
    page.push('\n');
    put_paragraphs(&mut page, command.more);
    for flag in command.flags {
        page.push_str(
            &format!("  {} {}\n", flag.name, flag.value.unwrap_or_default()).replace(" \n", "\n"),
        );
        put_folded(&mut page, flag.words, 6);
    }
    page.push('\n');
    put_paragraphs(&mut page, FILES);
    page.truncate(page.trim_end().len());
    page.push('\n');
    page
}

/// What `--version` prints.
pub fn version() -> String {
    let (major, minor, patch) = groovepawn::HEADER_VERSION;
    format!(
        "{NAME} {}\nlibrary: groovepawn.h {major}.{minor}.{patch}; kit: {}\nbuilt by {}\n",
        env!("CARGO_PKG_VERSION"),
        env!("DESK_KIT"),
        env!("DESK_BUILT"),
    )
}

/// Words as a sentence.
pub fn sentence(words: &str) -> String {
    let mut letters = words.chars();
    match letters.next() {
        Some(first) => format!("{}{}.", first.to_uppercase(), letters.as_str()),
        None => String::new(),
    }
}

fn put_paragraphs(page: &mut String, paragraphs: &[&str]) {
    for paragraph in paragraphs {
        put_folded(page, paragraph, 0);
        page.push('\n');
    }
}

/// The width of a page.
const WIDTH: usize = 80;

/// Words in lines of at most a width, set in by some blanks.
fn put_folded(page: &mut String, words: &str, set_in: usize) {
    let mut width = 0;
    for word in words.split_whitespace() {
        if width > 0 && width + 1 + word.len() > WIDTH {
            page.push('\n');
            width = 0;
        }
        if width == 0 {
            page.push_str(&" ".repeat(set_in));
            width = set_in;
        } else {
            page.push(' ');
            width += 1;
        }
        page.push_str(word);
        width += word.len();
    }
    page.push('\n');
}
