//! The script `pages`: completions and man pages, made from what the command says of itself.

mod common;

use common::{files, fresh, mve, program, run, say};
use std::path::Path;
use std::process::Command;

#[test]
fn made() {
    let folder = fresh("pages");
    let mut command = Command::new(Path::new(env!("CARGO_MANIFEST_DIR")).join("pages"));
    command.arg(program()).arg(folder.join("share"));
    let ran = run(&folder, command);
    assert_eq!(ran.code, Some(0), "{}", ran.err);
    let made = files(&folder.join("share"));
    let shells = [
        ("bash", "bash-completion/completions/mve"),
        ("zsh", "zsh/site-functions/_mve"),
        ("fish", "fish/vendor_completions.d/mve.fish"),
    ];
    for (shell, file) in shells {
        assert!(made[file] == mve(&folder, &["completions", shell]).out, "{shell}");
    }
    if ran.err.contains("no man pages: help2man is missing") {
        return say("help2man is not there (Debian: help2man): no man page is made");
    }
    let page =
        |name: &str| String::from_utf8_lossy(&made[&format!("man/man1/{name}.1")]).into_owned();
    let whole = page("mve");
    let help = mve(&folder, &["--help"]);
    let names = help.text().lines().skip_while(|line| *line != "Commands:").skip(1);
    let names: Vec<_> = names.map_while(|line| line.split_whitespace().next()).collect();
    assert!(names.contains(&"info") && names.last() == Some(&"help"), "{names:?}");
    for name in &names[..names.len() - 1] {
        assert!(whole.contains(&format!(".BR mve-{name} (1)\n")), "{name}");
        let of_subcommand = page(&format!("mve-{name}"));
        assert!(of_subcommand.contains(&format!("\nmve-{name} \\- ")), "{of_subcommand}");
        assert!(of_subcommand.contains("\n.SH SYNOPSIS\n"), "{of_subcommand}");
    }
}
