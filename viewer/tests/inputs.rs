//! The program takes any input: it shows it, or says what is wrong, and never breaks off.

use std::io::Write;
use std::path::PathBuf;
use std::process::{Command, Output, Stdio};
use std::{env, fs, thread};

/// The program with these arguments and this input.
fn view(arguments: &[&str], input: &[u8]) -> Output {
    let mut program = Command::new(env!("CARGO_BIN_EXE_view"));
    let pipes = program
        .args(arguments)
        .stdin(Stdio::piped())
        .stdout(Stdio::piped())
        .stderr(Stdio::piped());
    let mut child = pipes.spawn().unwrap();
    let mut stdin = child.stdin.take().unwrap();
    let input = input.to_vec();
    // The program may end before it has read everything.
    let writer = thread::spawn(move || drop(stdin.write_all(&input)));
    let output = child.wait_with_output().unwrap();
    writer.join().unwrap();
    output
}

fn out(output: &Output) -> String {
    String::from_utf8(output.stdout.clone()).unwrap()
}

fn complaint(output: &Output) -> String {
    String::from_utf8(output.stderr.clone()).unwrap()
}

/// What is answered to each line of a script.
fn answers(input: &[u8]) -> Vec<String> {
    let output = view(&["-"], input);
    assert_eq!(complaint(&output), "");
    out(&output)
        .lines()
        .filter_map(|line| line.strip_prefix("answer    ").map(String::from))
        .collect()
}

/// A folder of its own for a test's files.
fn folder(name: &str) -> PathBuf {
    let folder = env::temp_dir().join(format!("viewer-{}-{name}", std::process::id()));
    fs::create_dir_all(&folder).unwrap();
    folder
}

#[test]
fn an_empty_script_shows_nothing() {
    let output = view(&["-"], b"");
    assert_eq!(
        (out(&output), complaint(&output)),
        (String::new(), String::new())
    );
    assert_eq!(output.status.code(), Some(0));
}

#[test]
fn lines_of_every_wrong_form() {
    let wrong: [&[u8]; 14] = [
        b"",
        b" min",
        b"min ",
        b"min\r",
        b"MIN",
        b"new",
        b"new  4",
        b"new\t4",
        b"new -4",
        b"dec 1",
        b"dec 1 2 3",
        b"new 0000000000000004",
        b"\0",
        b"\xff\xfe",
    ];
    for line in wrong {
        let script = [b"new 4\n", line, b"\nmin\n"].concat();
        assert_eq!(
            answers(&script),
            ["taken", "refused 7", "empty 3"],
            "{line:?}"
        );
    }
}

#[test]
fn numbers_are_judged_by_their_value() {
    let script = b"new 0\nnew 65537\nnew 1025\nmin\nnew 1024\ndec 1024 1\ndec 0 1099511627776\ndec 007 5\nmin";
    let expected = [
        "refused 1",
        "refused 1",
        "refused 2",
        "refused 3",
        "taken",
        "refused 4",
        "refused 5",
        "taken",
        "min 7 5 1",
    ];
    assert_eq!(answers(script), expected);
}

#[test]
fn a_line_of_any_length() {
    let mut script = b"new 4\n".to_vec();
    script.extend(b"dec 0 1 ".repeat(1_000_000));
    script.extend(b"\nmin");
    assert_eq!(answers(&script), ["taken", "refused 7", "empty 3"]);
    let shown = out(&view(&["-"], &script));
    assert!(
        shown.contains("line 2    dec 0 1 dec 0 1 dec 0 1 dec 0 1 dec  ..\n"),
        "{shown}"
    );
}

#[test]
fn words_that_are_no_image() {
    let cases: [(&[u8], &str); 5] = [
        (b"", "image     refused 2: "),
        (b"4 3 0", "image     refused 2: "),
        (b"0 0 0 0 0 0 0 0 0 0 0 0 0 0", "image     refused 3: "),
        (b"65537 0 0 0 0 0 0 0 0 0 0 0 0 0", "image     refused 3: "),
        (
            b"18446744073709551615 0 0 0 0 0 0 0 0 0 0 0 0 0",
            "image     refused 3: ",
        ),
    ];
    for (words, shown) in cases {
        let output = view(&["--words", "-"], words);
        assert!(out(&output).starts_with(shown), "{}", out(&output));
        assert_eq!(
            (complaint(&output), output.status.code()),
            (String::new(), Some(1))
        );
    }
}

#[test]
fn words_that_are_no_numbers() {
    let cases: [(&[u8], &str); 5] = [
        (
            b"4 three",
            "view: -: number 1 is no decimal of 64 bits: three\n",
        ),
        (b"4 -3", "view: -: number 1 is no decimal of 64 bits: -3\n"),
        (b"+4", "view: -: number 0 is no decimal of 64 bits: +4\n"),
        (
            b"18446744073709551616",
            "view: -: number 0 is no decimal of 64 bits: 18446744073709551616\n",
        ),
        (
            b"1\n\n\xff",
            "view: -: number 1 is no decimal of 64 bits: \\xff\n",
        ),
    ];
    for (words, wrong) in cases {
        let output = view(&["--words", "-"], words);
        assert_eq!(
            (out(&output), complaint(&output)),
            (String::new(), wrong.to_string())
        );
        assert_eq!(output.status.code(), Some(1));
    }
    // A word of any length, of which only the first bytes are held.
    let output = view(&["--words", "-"], &b"0".repeat(5_000_000));
    assert!(complaint(&output).starts_with("view: -: number 0 is no decimal of 64 bits: 0000"));
}

#[test]
fn words_behind_an_image_do_not_matter() {
    let open = 1u64 << 56;
    let words = format!(
        "1 1 0 9 10 13 {open} 0 0 0 0 0 0 0 {}",
        "7 ".repeat(400_000)
    );
    let output = view(&["--words", "-"], words.as_bytes());
    assert!(out(&output).contains("next      a Delete-Min would find nothing: empty 1\n"));
    assert_eq!(output.status.code(), Some(0));
}

#[test]
fn sheets_that_are_none() {
    let cases: [(&[u8], &str, &str); 3] = [
        (b"", "refused 11\n", ""),
        (
            b"1 0 20 28 0 0 0",
            "n 1, h 0, source 0 (the run begins at vertex 0)\nrow 0   -\nreached 1 of 1\n0 0\n",
            "",
        ),
        (
            b"4294967296",
            "",
            "view: -: number 0 is no number of 32 bits: 4294967296\n",
        ),
    ];
    for (numbers, shown, wrong) in cases {
        let output = view(&["--sheet", "-"], numbers);
        assert_eq!(
            (out(&output).as_str(), complaint(&output).as_str()),
            (shown, wrong)
        );
    }
}

#[test]
fn files_that_cannot_be_read_or_written() {
    for arguments in [
        ["--words", "/no/such/file"],
        ["--sheet", "/"],
        ["--svg", "/no/such/folder/file"],
        ["--all", "/"],
    ] {
        let output = view(&arguments, b"");
        assert_eq!(output.status.code(), Some(1), "{arguments:?}");
        assert!(
            complaint(&output).starts_with("view: /"),
            "{}",
            complaint(&output)
        );
    }
}

#[test]
fn arguments_of_another_form() {
    for arguments in [
        &["--words"][..],
        &["--other"],
        &["one", "two"],
        &["--sheet", "one", "two"],
    ] {
        let output = view(arguments, b"");
        assert_eq!(output.status.code(), Some(2));
        assert!(complaint(&output).starts_with("usage: "));
    }
}

#[test]
fn whoever_reads_may_stop() {
    let mut program = Command::new(env!("CARGO_BIN_EXE_view"));
    let mut child = program
        .arg("-")
        .stdin(Stdio::piped())
        .stdout(Stdio::piped())
        .stderr(Stdio::piped())
        .spawn()
        .unwrap();
    drop(child.stdout.take());
    let _ = child
        .stdin
        .take()
        .unwrap()
        .write_all(&b"new 4\n".repeat(10_000));
    let output = child.wait_with_output().unwrap();
    assert_eq!(
        (complaint(&output), output.status.code()),
        (String::new(), Some(0))
    );
}

/// Without arguments the page's listing; its last answer is empty with reach 3.
#[test]
fn the_listing_is_shown_without_arguments() {
    let shown = out(&view(&[], b""));
    assert_eq!(shown.matches("answer    ").count(), 10);
    assert!(shown.contains("line 10   min\nanswer    empty 3\n"));
}

#[test]
fn pictures_into_a_file_and_into_a_folder() {
    let folder = folder("pictures");
    let file = folder.join("last.svg");
    let steps = format!("{}/steps/", folder.display());
    view(
        &["--svg", file.to_str().unwrap(), "-"],
        b"new 4\nmin & <more>\n",
    );
    view(&["--svg", &steps, "-"], b"new 4\nmin & <more>\n");
    let last = fs::read_to_string(&file).unwrap();
    assert!(last.contains("line 2: min &amp; &lt;more&gt;") && last.contains("answer: refused 7"));
    assert_eq!(
        fs::read_to_string(folder.join("steps/line-2.svg")).unwrap(),
        last
    );
    assert!(fs::read_to_string(folder.join("steps/line-1.svg"))
        .unwrap()
        .contains("line 1: new 4"));
    fs::remove_dir_all(folder).unwrap();
}

/// An image of the most ids, all in use: it is shown, and long lists are cut.
#[test]
fn the_largest_image() {
    let open = 1u64 << 56;
    let mut words = vec![65_536, 17, 65_536, 57, 57 + 131_071, 57 + 131_071 + 196_608];
    for i in 0..17 {
        words.extend([open, 0, if i == 0 { 65_536 } else { 0 }]);
    }
    words.resize(57 + 131_071, 0);
    words.extend((0..65_536).map(|id| open + ((1 << 40) - 1) * 65_536 + id));
    words.resize(393_272, 0);
    let text: Vec<String> = words.iter().map(u64::to_string).collect();
    let output = view(&["--words", "-"], text.join("\n").as_bytes());
    let shown = out(&output);
    assert!(
        shown.contains("65512 more") && shown.contains("word 2    65536 of at most 65536"),
        "{shown}"
    );
    assert!(
        shown.contains("a Delete-Min would stop at level 0: min 0 1099511627775 1"),
        "{shown}"
    );
}
