//! Colours, at a terminal and elsewhere.

use std::process::{Command, Stdio};

use crate::{ran, Folder};

const PLAIN: &str = "t:1:3: refused 4: this token isn't allowed here\n  |\n1 | a b\n  |   ^\n";
const PAINTED: &str =
    "\x1b[1mt:1:3:\x1b[0m \x1b[1;31mrefused 4:\x1b[0m this token isn't allowed here\n\
\x1b[1;34m  |\x1b[0m\n\x1b[1;34m1 |\x1b[0m a b\n\x1b[1;34m  |\x1b[0m   \x1b[1;31m^\x1b[0m\n";

fn bad() -> Folder {
    Folder::of(&[("t", "a b")])
}

#[test]
fn no_colour_but_on_a_terminal() {
    assert_eq!(bad().run("check t").out, PLAIN);
    assert_eq!(bad().run("check --color auto t").out, PLAIN);
    assert_eq!(bad().run("--color never check t").out, PLAIN);
}

#[test]
fn colour_always() {
    assert_eq!(bad().run("check --color always t").out, PAINTED);
    assert_eq!(bad().run("--color=always tree t").err, PAINTED);
    let folder = bad();
    let mut command = folder.command(["check", "--color", "always", "t"]);
    assert_eq!(ran(command.env("NO_COLOR", "1")).out, PAINTED, "what is asked for by name wins");
}

#[test]
fn what_is_not_a_refusal_is_painted_too() {
    let folder = Folder::of(&[("one", "a={#t=b}"), ("two", "a={#t=c}")]);
    assert_eq!(
        folder.run("dropped --color always one").out,
        "\x1b[1mone:1:4:\x1b[0m \x1b[1;31mdropped: the tag #t\x1b[0m of b\n"
    );
    let same = folder.run("same --color always one two").out;
    assert!(same.starts_with("\x1b[1;31mdifferent:\x1b[0m rule 1, a, "), "{same}");
    assert!(folder
        .run("explain --color always 3")
        .out
        .starts_with("\x1b[1;31mrefused 3:\x1b[0m no token"));
    // printed text and lists are for programs as well
    for args in ["print one", "tokens one", "tree one"] {
        assert_eq!(folder.run(&format!("--color always {args}")).out, folder.run(args).out);
    }
}

/// What a terminal is given by a line of shell, with `$flascjuvan` for the program. The terminal is
/// that of script(1).
fn on_a_terminal(line: &str) -> String {
    let folder = bad();
    let mut command = Command::new("script");
    command.args(["-q", "-c", line, "/dev/null"]).stdin(Stdio::null()).current_dir(&folder.0);
    command
        .env("flascjuvan", env!("CARGO_BIN_EXE_flascjuvan"))
        .env_remove("NO_COLOR")
        .env("TERM", "xterm");
    let output = command.output().expect("script(1) is there");
    String::from_utf8_lossy(&output.stdout).replace("\r\n", "\n")
}

#[test]
fn colour_on_a_terminal() {
    assert_eq!(on_a_terminal("$flascjuvan check t"), PAINTED);
    assert_eq!(on_a_terminal("$flascjuvan print t"), PAINTED, "on standard error");
}

#[test]
fn no_colour_where_none_is_wanted() {
    assert_eq!(on_a_terminal("$flascjuvan check --color never t"), PLAIN);
    assert_eq!(on_a_terminal("NO_COLOR=1 $flascjuvan check t"), PLAIN);
    assert_eq!(
        on_a_terminal("NO_COLOR= $flascjuvan check t"),
        PAINTED,
        "an empty NO_COLOR says nothing"
    );
    assert_eq!(on_a_terminal("TERM=dumb $flascjuvan check t"), PLAIN);
    assert_eq!(on_a_terminal("$flascjuvan check t | cat"), PLAIN);
    assert_eq!(
        on_a_terminal("$flascjuvan print t >printed"),
        PLAIN,
        "standard output is no terminal"
    );
    assert_eq!(
        on_a_terminal("$flascjuvan print t 2>said; cat said"),
        PLAIN,
        "standard error is no terminal"
    );
}
