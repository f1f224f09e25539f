use crate::{out, Folder};

const COMMANDS: [&str; 8] =
    ["check", "tree", "print", "tokens", "dropped", "same", "match", "explain"];

const STATUSES: &str = "
Exit status:
  0  all is well
  1  a text or a line is refused, two texts differ, one would change or something would be dropped
  2  wrong usage, a file that can't be read, output that fails
A reader of the output that goes away early is no failure.
";

#[test]
fn version() {
    let said = format!("flascjuvan {}\n", env!("CARGO_PKG_VERSION"));
    assert_eq!(Folder::new().run("--version"), out(0, &said));
}

#[test]
fn help_names_every_subcommand_and_status() {
    let ran = Folder::new().run("--help");
    assert_eq!((ran.status, &ran.err[..]), (0, ""));
    assert!(ran.out.ends_with(STATUSES));
    for command in COMMANDS {
        assert!(ran.out.contains(&format!("\n  {command} ")), "{command}");
        let ran = Folder::new().run(&format!("{command} --help"));
        assert_eq!((ran.status, &ran.err[..]), (0, ""));
        assert!(ran.out.contains(&format!("Usage: flascjuvan {command} ")));
        assert!(ran.out.ends_with(STATUSES));
        assert!(ran.out.lines().all(|line| line.chars().count() <= 110), "{}", ran.out);
    }
}

#[test]
fn wrong_usage() {
    let mut all: Vec<String> = [
        "",
        "chekc",
        "--no-such",
        "check --no-such t",
        "check",
        "same t",
        "same t t t",
        "tree --color blue t",
        "print --plain t",
        "print --short",
        "print --short=yes t",
        "print --short --short t",
        "tree --short t",
        "check --edition t",
        "check --edition 0 t",
        "check --edition 3 t",
        "check --edition two t",
        "check --edition 01 t",
        "check --edition 1 --edition 2 t",
        "tokens --edition 2 t",
        "explain --edition 2 15",
    ]
    .map(str::to_owned)
    .to_vec();
    all.extend(["tree", "print", "tokens", "dropped", "same"].map(str::to_owned));
    let folder = Folder::of(&[("t", "a = { b }")]);
    for args in all {
        let ran = folder.run(&args);
        assert_eq!((ran.status, &ran.out[..]), (2, ""), "{args}");
        assert!(
            ran.err.contains("Usage: flascjuvan") || ran.err.contains("--help"),
            "{args}: {}",
            ran.err
        );
    }
}

#[test]
fn a_file_may_have_a_name_like_an_option() {
    let folder = Folder::of(&[("--plain", "a={b}"), ("-", "%")]);
    assert_eq!(folder.run("print -- --plain"), out(0, "a = { b }\n"));
    assert_eq!(folder.run("check ./-").status, 1);
}
