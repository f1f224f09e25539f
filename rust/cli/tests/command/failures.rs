//! What can't be read or written.

use std::fs::{self, File};
use std::io::Write;
use std::process::{Command, Stdio};

use crate::{err, ran, Folder, Ran};

const COMMANDS: [&str; 5] = ["check", "tree", "print", "tokens", "dropped"];

#[test]
fn a_missing_file_and_a_folder() {
    let folder = Folder::new();
    let said = "\
flascjuvan: gone: there is no such file
flascjuvan: .: this is a directory
";
    for command in COMMANDS {
        assert_eq!(folder.run(&format!("{command} gone .")), err(2, said));
    }
    assert_eq!(folder.run("same gone ."), err(2, said));
}

#[test]
fn the_rest_is_still_done() {
    let folder = Folder::of(&[("a", "a={b}"), ("c", "c={d}")]);
    let ran = folder.run("print a gone c");
    let said = "flascjuvan: gone: there is no such file\n";
    assert_eq!(
        ran,
        Ran { status: 2, out: "a = { b }\nc = { d }\n".to_owned(), err: said.to_owned() }
    );
    // of 1 and 2 the status is 2, in any order
    fs::write(folder.0.join("bad"), "%").expect("a file can be written");
    assert_eq!(folder.run("check gone bad").status, 2);
    assert_eq!(folder.run("check bad gone").status, 2);
}

#[test]
fn a_file_whose_reading_fails() {
    // the first page of no program can be read
    let said = "flascjuvan: /proc/self/mem: Input/output error (os error 5)\n";
    assert_eq!(Folder::new().run("print /proc/self/mem"), err(2, said));
}

#[test]
fn a_file_that_may_not_be_read() {
    use std::os::unix::fs::PermissionsExt;
    let folder = Folder::of(&[("t", "a={b}")]);
    fs::set_permissions(folder.0.join("t"), PermissionsExt::from_mode(0o000))
        .expect("one's own file");
    // root may read every file of a disk, but nobody this one
    let path = match File::open(folder.0.join("t")) {
        Ok(_) => "/proc/sys/net/ipv4/route/flush",
        Err(_) => "t",
    };
    let said = format!("flascjuvan: {path}: it may not be read\n");
    assert_eq!(folder.run(&format!("print {path}")), err(2, &said));
}

#[test]
fn standard_input_is_read_once() {
    let said = "flascjuvan: <stdin>: it is named twice, and can be read once\n";
    let ran = Folder::new().feed("print - -", "a={b}");
    assert_eq!(ran, Ran { status: 2, out: "a = { b }\n".to_owned(), err: said.to_owned() });
    assert_eq!(Folder::new().feed("same - -", "a={b}"), err(2, said));
}

#[test]
fn a_full_disk_is_told() {
    let folder = Folder::of(&[("good", "a={b}"), ("bad", "%"), ("other", "a={c}")]);
    let said =
        "flascjuvan: standard output can't be written: No space left on device (os error 28)\n";
    for args in [
        "print good",
        "tree good good",
        "tokens good",
        "check bad",
        "print --check good",
        "print --short good",
        "same good other",
        "explain",
        "explain 3",
        "--help",
        "--version",
    ] {
        let full = File::create("/dev/full").expect("the full device");
        assert_eq!(
            ran(folder.command(args.split_whitespace()).stdout(full)),
            err(2, said),
            "{args}"
        );
    }
}

/// Runs it with nobody reading its output, and gives its status and what it complains of.
fn unread(folder: &Folder, args: &str, text: &str) -> (Option<i32>, String) {
    let mut command = folder.command(args.split_whitespace());
    let mut child = command
        .stdin(Stdio::piped())
        .stdout(Stdio::piped())
        .stderr(Stdio::piped())
        .spawn()
        .expect("the program starts");
    drop(child.stdout.take());
    // only now has it something to write
    child.stdin.take().expect("a pipe").write_all(text.as_bytes()).expect("it reads");
    let output = child.wait_with_output().expect("the program ends");
    (output.status.code(), String::from_utf8_lossy(&output.stderr).into_owned())
}

#[test]
fn a_closed_pipe_ends_it_in_silence() {
    let folder = Folder::of(&[("bad", "%")]);
    for args in ["tree -", "print -", "print --short -", "tokens -"] {
        assert_eq!(unread(&folder, args, "a={b}"), (Some(0), String::new()), "{args}");
    }
    // what was found still counts
    assert_eq!(unread(&folder, "check - bad", "a={b}"), (Some(1), String::new()));
    assert_eq!(unread(&folder, "dropped -", "a={#t=b}"), (Some(1), String::new()));
}

#[test]
fn deep_texts_take_no_more_stack_than_there_is() {
    let deep = [
        format!("a = {{ {}b }}\n", "!".repeat(4095)),
        format!("a = {{ b{} }}\n", "*".repeat(4095)),
        format!("a = {{ {}b{} }}\n", "(".repeat(1024), ")".repeat(1024)),
        format!("a = {{ {}b{} }}\n", "PUSH(".repeat(1024), ")".repeat(1024)),
        format!("a = {{ {}c{} }}\n", "#t = (b ~ ".repeat(1024), ")".repeat(1024)),
        format!("a = {{ b{} }}\n", " ~ b".repeat(2047)),
    ];
    for (index, text) in deep.iter().enumerate() {
        let folder = Folder::new().with("t", text);
        for args in
            ["check t", "tree t", "print t", "print --short t", "tokens t", "dropped t", "same t t"]
        {
            let ran = on_little_stack(&folder, args);
            let status = if index == 4 && args == "dropped t" { 1 } else { 0 };
            assert_eq!((ran.status, &ran.err[..]), (status, ""), "{index}: {args}");
        }
    }
    // 1,024 visits inside one another, and one more
    for (count, status) in [(1023, 0), (1024, 1)] {
        let text = format!("a = {{ {}\"a\" }}", "!".repeat(count));
        let ran = on_little_stack(&Folder::new().with("t", text), "match t a t");
        assert_eq!((ran.status, &ran.err[..]), (status, ""), "{count}");
    }
}

/// Runs it where its first thread has 128 KB of stack.
fn on_little_stack(folder: &Folder, args: &str) -> Ran {
    let mut command = Command::new("sh");
    command.args(["-c", "ulimit -s 128 && exec \"$@\"", "sh", env!("CARGO_BIN_EXE_flascjuvan")]);
    ran(command.args(args.split_whitespace()).current_dir(&folder.0))
}

#[test]
fn closed_descriptors_are_told() {
    let folder = Folder::of(&[("t", "a={\"b\"}"), ("bad", "%")]);
    let program = env!("CARGO_BIN_EXE_flascjuvan");
    let shell = |command: &str| {
        let mut sh = Command::new("sh");
        sh.args(["-c", &format!("\"$0\" {command}"), program]).current_dir(&folder.0);
        ran(&mut sh)
    };
    let lost = "flascjuvan: standard output can't be written: it is closed\n";
    for command in [
        "print t",
        "tree t",
        "tokens t",
        "check bad",
        "match t a t",
        "explain 4",
        "--help",
        "--version",
    ] {
        assert_eq!(shell(&format!("{command} >&-")), err(2, lost), "{command}");
    }
    // nothing is lost where there is nothing to say
    assert_eq!(shell("check t >&-"), err(0, ""));
    let none = "flascjuvan: <stdin>: it is closed\n";
    for command in COMMANDS {
        assert_eq!(shell(&format!("{command} - <&-")), err(2, none), "{command}");
    }
    assert_eq!(shell("match t a <&-"), err(2, none));
    assert_eq!(
        shell("print - < t"),
        Ran { status: 0, out: "a = { \"b\" }\n".to_owned(), err: String::new() }
    );
}
