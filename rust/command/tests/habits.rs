//! The program as a shell has it: statuses, options, files and pipes.

mod common;

use std::fs::{self, File};
use std::io::{BufRead, BufReader, Read};
use std::os::unix::fs::{PermissionsExt, symlink};
use std::process::Stdio;

use common::{Folder, Ran, data, finish, program};

fn softlode(words: &[&str], input: &[u8]) -> Ran {
    finish(program().args(words).current_dir(data("")), input)
}

/// One line on standard error that begins with the program's name, and nothing on standard output.
fn complains(ran: &Ran, status: i32, what: &str) {
    assert_eq!((ran.status, ran.output.len()), (status, 0), "{ran:?}");
    let line = ran.complaints.strip_prefix("softlode: ").and_then(|rest| rest.strip_suffix('\n'));
    assert!(line.is_some_and(|line| line.contains(what) && !line.contains('\n')), "{ran:?}");
}

#[test]
fn help_and_version() {
    let version = softlode(&["--version"], b"");
    assert_eq!(
        (version.status, version.text()),
        (0, concat!("softlode ", env!("CARGO_PKG_VERSION"), "\n"))
    );
    let help = softlode(&["--help"], b"");
    assert!(help.status == 0 && help.complaints.is_empty());
    for command in command::COMMANDS {
        assert!(help.text().contains(&format!("\n  softlode {} ", command.name)));
        let of_command = softlode(&["help", command.name], b"");
        assert_eq!(of_command.status, 0);
        assert!(of_command.text().starts_with(&format!("Usage: softlode {} ", command.name)));
        assert_eq!(softlode(&[command.name, "--help"], b""), of_command);
        assert_eq!(softlode(&[command.name, "-h", "more"], b""), of_command);
        // Help and usage keep within a screen's width of 120.
        assert!(help.text().lines().chain(of_command.text().lines()).all(|line| line.len() <= 120));
        let missing = softlode(&[command.name], b"");
        complains(&missing, 2, "something is missing");
    }
    let alone = softlode(&[], b"");
    assert_eq!((alone.status, alone.text()), (2, ""));
    assert!(alone.complaints.starts_with("softlode: a command is missing\nUsage:\n"));
}

#[test]
fn wrong_use() {
    for (words, what) in [
        (
            vec!["chekc", "week.rota"],
            "there is no command chekc; did you mean check? (softlode --help tells more)",
        ),
        (vec!["--verbose"], "there is no option --verbose"),
        (vec!["help", "chekc"], "did you mean check?"),
        (vec!["help", "check", "x"], "x is one argument too many"),
        (
            vec!["check", "--nmaes", "x", "week.rota"],
            "check has no option --nmaes; did you mean --names? (softlode help check tells more)",
        ),
        (vec!["check", "--plain", "week.rota"], "check has no option --plain"),
        (vec!["check", "-o", "x", "week.rota"], "check has no option --output"),
        (vec!["check", "-x", "week.rota"], "check has no option -x"),
        (vec!["check", "week.rota", "small.rota"], "small.rota is one argument too many"),
        (vec!["check", "--names"], "--names needs a file after it"),
        (vec!["text", "week.rota", "-o"], "-o needs a file after it"),
        (vec!["list", "--plain=yes", "week.rota"], "--plain takes no value"),
        (vec!["text", "-oa", "--output=b", "week.rota"], "--output stands there twice"),
        (
            vec!["text", "--no-names", "--names", "x", "week.rota"],
            "--names and --no-names do not go together",
        ),
        (vec!["text", "--names", "-", "-"], "standard input cannot be both a rota and its names"),
        (vec!["check", "none.rota"], "cannot read none.rota: No such file or directory"),
        (vec!["check", "."], "cannot read .: Is a directory"),
        (vec!["check", "--", "--names"], "cannot read --names: No such file or directory"),
        (
            vec!["check", "--names", "none.names", "week.rota"],
            "cannot read none.names: No such file or directory",
        ),
        (vec!["board", "week.rota", "1", "2", "3", "4"], "4 is one argument too many"),
        (vec!["text", "week.rota", "-o", "."], "cannot write .: "),
        (
            vec!["text", "week.rota", "-o", "none/week.text"],
            "cannot write none/week.text: No such file or directory",
        ),
        (vec!["text", "week.rota", "-o", ""], "cannot write : "),
    ] {
        complains(&softlode(&words, b""), 2, what);
    }
}

#[test]
fn standard_input_and_output() {
    let rota = fs::read(data("week.rota")).unwrap();
    let text = softlode(&["text", "week.rota"], b"");
    assert_eq!(
        (text.status, text.text()),
        (0, fs::read_to_string(data("week.text")).unwrap().as_str())
    );
    let piped = softlode(&["text", "-", "--names=week.rota.names"], &rota);
    assert_eq!(piped, text);
    // Without a file there are no names beside it.
    let plain = softlode(&["text", "-"], &rota);
    assert_eq!(plain, softlode(&["text", "week.rota", "--no-names"], b""));
    let packed = softlode(&["pack", "-"], &text.output);
    assert_eq!((packed.status, &packed.output), (0, &rota));
    assert_eq!(
        packed.complaints,
        "softlode: the names of the text are not kept: -o OUT keeps them in OUT.names\n"
    );
    let packed = softlode(&["pack", "-", "-o", "-"], &plain.output);
    assert_eq!((packed.status, &packed.output, packed.complaints.as_str()), (0, &rota, ""));
    let names = fs::read(data("week.rota.names")).unwrap();
    assert_eq!(softlode(&["text", "week.rota", "--names", "-"], &names), text);
}

#[test]
fn packed_and_tidied_files_keep_their_names() {
    let folder = Folder::new("pack");
    let run = |words: &[&str]| finish(program().args(words).current_dir(&folder.0), b"");
    fs::copy(data("week.text"), folder.path("week.text")).unwrap();
    let packed = run(&["pack", "week.text", "-o", "my.rota"]);
    assert!(
        packed.status == 0
            && packed.text().starts_with("wrote my.rota: a rota of format 1, cycle 1 week"),
        "{packed:?}"
    );
    for (made, stored) in [("my.rota", "week.rota"), ("my.rota.names", "week.rota.names")] {
        assert_eq!(fs::read(folder.path(made)).unwrap(), fs::read(data(stored)).unwrap());
    }
    assert_eq!(run(&["tidy", "my.rota", "-otidy.rota"]).status, 0);
    // The sum of a tidied rota is that of the rota, so that the names go on fitting.
    assert_eq!(
        fs::read(folder.path("tidy.rota.names")).unwrap(),
        fs::read(data("week.rota.names")).unwrap()
    );
    let tidy = fs::read(folder.path("tidy.rota")).unwrap();
    let mut area = [0; 4_460];
    let rota = fs::read(data("week.rota")).unwrap();
    assert_eq!(tidy, softlode::Rota::read(&rota).unwrap().tidy(&mut area).unwrap());
    assert!(run(&["check", "tidy.rota"]).text().ends_with(", with names that fit\n"));
    assert_eq!(run(&["tidy", "tidy.rota"]).output, tidy);
    // In its place.
    assert_eq!(run(&["tidy", "my.rota", "-o", "my.rota"]).status, 0);
    assert_eq!(fs::read(folder.path("my.rota")).unwrap(), tidy);
    assert_eq!(
        folder.names(),
        ["my.rota", "my.rota.names", "tidy.rota", "tidy.rota.names", "week.text"]
    );
}

#[test]
fn names_that_do_not_fit_are_refused() {
    let folder = Folder::new("names");
    let small = fs::read(data("small.rota")).unwrap();
    let rota = folder.file("a.rota", &small);
    let check = |names: &str| {
        folder.file("a.rota.names", names);
        finish(program().arg("check").arg(&rota), b"")
    };
    let head = "names of a rota with 2 volunteers, 1 right, 1 role, 2 hours, sum ";
    let sum =
        format!("{:08x}", command::names::sum(&softlode::Rota::read(&small).unwrap()).unwrap());
    for names in [
        "",
        "volunteer 0 Ruth\n",
        "# by hand\nvolunteer 1 Ruth # and no more",
        &format!("{head}{sum}\nrole 0 reader\n"),
    ] {
        assert_eq!(check(names).status, 0, "{names}");
    }
    for (names, what) in [
        (
            format!("{head}00000000\n"),
            format!("they are of another rota: its sum is 00000000, and this one's is {sum}"),
        ),
        (
            head.replace("2 volunteers", "3 volunteers") + &sum,
            "they are of a rota with 3 volunteers, not 2".into(),
        ),
        (
            head.replace("2 hours", "1 hours") + &sum,
            "they are of a rota with 1 hours, not 2".into(),
        ),
        (
            "volunteer 2 Ruth".into(),
            "volunteer 2 Ruth is not there: the file has 2 volunteers".into(),
        ),
        ("volunteer 255 Ruth".into(), "line 1, column 11: there is never a volunteer 255".into()),
        (
            "volunteer 0 Ruth\nvolunteer 1 RUTH".into(),
            "line 2, column 13: the name RUTH is used twice: volunteer 0 has it, but for capitals"
                .into(),
        ),
        (
            "volunteer 0 Ruth\nvolunteer 0 Ruth2".into(),
            "line 2, column 13: volunteer 0 has a name already".into(),
        ),
        (
            "volunteer 0".into(),
            "line 1, column 12: a name is missing at the end of the line".into(),
        ),
        ("volunteer 0 always".into(), "line 1, column 13: always is a word of the language".into()),
        (
            "person 0 Ruth".into(),
            "line 1, column 1: hours, volunteer, right or role is expected here, not person".into(),
        ),
        (
            format!("{head}12345"),
            "a sum of 8 hexadecimal digits is expected here, not 12345".into(),
        ),
        (
            format!("volunteer 0 Ruth\n{head}{sum}"),
            "line 2, column 1: hours, volunteer, right or role is expected here, not names".into(),
        ),
    ] {
        complains(&check(&names), 2, &what);
        // Without them all is fine.
        let without = finish(program().args(["check", "--no-names"]).arg(&rota), b"");
        assert_eq!(without.status, 0);
    }
    folder.file("a.rota.names", b"volunteer 0 \xff");
    complains(
        &finish(program().arg("check").arg(&rota), b""),
        2,
        "line 1, column 13: byte 0xff is no UTF-8 text",
    );
}

/// A file is replaced whole or not at all, and nothing is left behind.
#[test]
fn whole_or_not_at_all() {
    let folder = Folder::new("whole");
    let run = |words: &[&str]| finish(program().args(words).current_dir(&folder.0), b"");
    folder.file("bad.text", "rota format 1\ncycle 1 weak\n");
    folder.file("good.text", "rota format 1\ncycle 1 week\nvolunteer 0 Ruth\n");
    folder.file("out", "as it was");
    let bad = run(&["pack", "bad.text", "-o", "out"]);
    complains(&bad, 1, "bad.text, line 2, column 9: ");
    assert_eq!(fs::read(folder.path("out")).unwrap(), b"as it was");
    assert_eq!(folder.names(), ["bad.text", "good.text", "out"]);
    // The permissions of a file that is replaced stay; a link is followed, and stays.
    fs::set_permissions(folder.path("out"), fs::Permissions::from_mode(0o640)).unwrap();
    symlink("out", folder.path("link")).unwrap();
    assert_eq!(run(&["pack", "good.text", "-o", "link"]).status, 0);
    assert_eq!(fs::read_link(folder.path("link")).unwrap().as_os_str(), "out");
    assert_eq!(fs::read(folder.path("out")).unwrap().len(), 12);
    assert_eq!(fs::metadata(folder.path("out")).unwrap().permissions().mode() & 0o7777, 0o640);
    assert_eq!(folder.names(), ["bad.text", "good.text", "link", "link.names", "out"]);
    symlink("nowhere", folder.path("lost")).unwrap();
    complains(
        &run(&["pack", "good.text", "-o", "lost"]),
        2,
        "cannot write lost: No such file or directory",
    );
    // Where the names cannot be written the rota is not either.
    fs::create_dir(folder.path("new.names")).unwrap();
    complains(&run(&["pack", "good.text", "-o", "new"]), 2, "cannot write new.names: ");
    assert_eq!(
        folder.names(),
        ["bad.text", "good.text", "link", "link.names", "lost", "new.names", "out"]
    );
}

#[test]
fn a_full_disk() {
    for words in [
        vec!["text", "week.rota"],
        vec!["list", "week.rota"],
        vec!["check", "week.rota"],
        vec!["tidy", "week.rota"],
        vec!["--help"],
    ] {
        let full = File::options().write(true).open("/dev/full").expect("a full device");
        let ended = program()
            .args(&words)
            .current_dir(data(""))
            .stdin(Stdio::null())
            .stdout(full)
            .output()
            .unwrap();
        assert_eq!(ended.status.code(), Some(2), "{words:?}");
        assert_eq!(
            ended.stderr,
            b"softlode: cannot write to standard output: No space left on device\n"
        );
    }
    for words in [["text", "week.rota"], ["tidy", "week.rota"], ["pack", "week.text"]] {
        let ran = softlode(&[&words[..], &["-o", "/dev/full"]].concat(), b"");
        complains(&ran, 2, "cannot write /dev/full: No space left on device");
    }
    assert!(
        fs::metadata("/dev/full.names").is_err() && !fs::metadata("/dev/full").unwrap().is_file()
    );
}

/// Whoever reads no more has what they want.
#[test]
fn a_closed_pipe_ends_quietly() {
    let rota = cases::generate::rota_with_table(32, 10_000).encode();
    let folder = Folder::new("pipe");
    let file = folder.file("long.rota", rota);
    let mut command = program();
    let command = command.arg("list").arg(file).stdout(Stdio::piped()).stderr(Stdio::piped());
    let mut child = command.spawn().unwrap();
    let mut first = String::new();
    let mut output = BufReader::with_capacity(64, child.stdout.take().unwrap());
    output.read_line(&mut first).unwrap();
    assert_eq!(first, "a table of cycle 210 minutes, 32 derived roles, 10000 rows\n");
    drop(output);
    let mut complaints = String::new();
    child.stderr.take().unwrap().read_to_string(&mut complaints).unwrap();
    assert_eq!((child.wait().unwrap().code(), complaints.as_str()), (Some(0), ""));
}

/// No more is read than the answer needs, so that a file without an end has an answer too.
#[test]
fn files_without_an_end() {
    let ran = softlode(&["check", "/dev/zero"], b"");
    assert!(ran.status == 1 && ran.text().starts_with("refused 2: "), "{ran:?}");
    complains(
        &softlode(&["pack", "/dev/zero"], b""),
        2,
        "/dev/zero is too long: a text has at most 4194304 bytes",
    );
}
