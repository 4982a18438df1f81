//! The man page, of the same words as `--help`.

use crate::help::{Command, ABOUT, COMMANDS, FILES, NAME, STATUS, SUMMARY};
use crate::pages::sentence;

pub fn page() -> String {
    let mut page = format!(
        ".TH GROOVEPAWN 1 \"\" \"groovepawn {}\"\n",
        env!("CARGO_PKG_VERSION")
    );
    page.push_str(&format!(
        ".SH NAME\n{NAME} \\- {}\n.SH SYNOPSIS\n.nf\n",
        plain(SUMMARY)
    ));
    for command in COMMANDS {
        page.push_str(&format!("{NAME} {}\n", plain(&command.usage())));
    }
    page.push_str(&format!(
        "{NAME} COMMAND \\-\\-help\n{NAME} \\-\\-version\n.fi\n.SH DESCRIPTION\n"
    ));
    put_paragraphs(&mut page, ABOUT);
    page.push_str(".SH COMMANDS\n");
    for command in COMMANDS {
        put_command(&mut page, command);
    }
    page.push_str(".SH FILES\n");
    put_paragraphs(&mut page, FILES);
    page.push_str(".SH EXIT STATUS\n");
    put_paragraphs(&mut page, STATUS);
    page
}

fn put_command(page: &mut String, command: &Command) {
    page.push_str(&format!(
        ".SS {}\n{}\n.PP\n",
        plain(&command.usage()),
        plain(&sentence(command.does))
    ));
    put_paragraphs(page, command.more);
    for flag in command.flags {
        let value = flag.value.unwrap_or_default();
        let spelled = format!("{} {value}", flag.name);
        page.push_str(&format!(
            ".TP\n.B {}\n{}\n",
            plain(spelled.trim_end()),
            plain(flag.words)
        ));
    }
}

fn put_paragraphs(page: &mut String, paragraphs: &[&str]) {
    for paragraph in paragraphs {
        page.push_str(&format!("{}\n.PP\n", plain(paragraph)));
    }
}

/// Words with nothing in them that troff would take for its own.
fn plain(words: &str) -> String {
    let escaped = words
        .replace('\\', "\\e")
        .replace('-', "\\-")
        .replace('\'', "\\(aq");
    if escaped.starts_with('.') {
        format!("\\&{escaped}")
    } else {
        escaped
    }
}
