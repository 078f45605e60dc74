//! The command ./plan: its statuses, its words on standard error, and that it runs
//! only what the last check proved. Most trials are made in a small tree of its own,
//! with a stand-in for `rt`, and with the built program.

use noughtelm_tests::both::shown;
use noughtelm_tests::gen::text::served_of_length;
use noughtelm_tests::program::{at_terminal, root};
use noughtelm_tests::trial::*;
use std::env;
use std::fs::{self, File};
use std::os::unix::fs::symlink;
use std::process::{Command, Stdio};

fn planned(text: &[u8]) -> Came {
    given(command(&tree(UNCHANGED)), text)
}

// ---- what it answers

#[test]
fn a_planned_text() {
    assert_eq!(own_with(&[], CASE_1), served());
    assert_eq!(own_with(&["-"], CASE_1), served());
    assert_eq!(planned(CASE_1), served());
}

#[test]
fn the_stored_texts() {
    let tree = tree(UNCHANGED);
    let mut seen = [0; 2];
    for entry in fs::read_dir(root().join("tests/texts")).expect("stored texts") {
        let file = entry.expect("a file").path();
        if file.extension().is_none_or(|end| end != "in") {
            continue;
        }
        let page = fs::read(file.with_extension("out")).expect("its output");
        let (status, printed, words) = given(command(&tree), &fs::read(&file).expect("a text"));
        assert_eq!(printed, shown(&page), "{}", file.display());
        assert_eq!(status, i32::from(page[0] == b'R'), "{}", file.display());
        assert_eq!(words.is_empty(), status == 0, "{}: {words}", file.display());
        seen[status as usize] += 1;
    }
    assert!(seen[0] > 10 && seen[1] > 10, "{seen:?}");
}

/// A text of 2 items, then this.
fn after_2(text: &str) -> Vec<u8> {
    format!("K\t2\t1\t10\n{text}").into_bytes()
}

#[test]
fn each_refusal_in_words() {
    let cases: [(Vec<u8>, &str, &str); 24] = [
        (b"K\t65\t1\t10\n".into(), "R\t1\t1\n", "line 1: 1 count, kettles to open not 1 to 64\n  the K line has 65 kettles\n"),
        (b"K\t2\t10\t10\n".into(), "R\t2\t1\n", "line 1: 2 slack, p or q outside its range\n  the slack is 10/10: p is from 1 and below q, and q is at most 1,000\n"),
        (after_2(&"A\n".repeat(129)), "R\t3\t130\n", "line 130: 3 full, 128 batches have arrived\n"),
        (after_2("A\t1\t5\t3\t5\n"), "R\t4\t2\n", "line 2: 4 unknown, kettle not 1 to k\n  entry 2 names kettle 3; there are kettles 1 to 2\n"),
        (after_2("A\nW\t0\n"), "R\t4\t3\n", "line 3: 4 unknown, kettle not 1 to k\n  the line names kettle 0; there are kettles 1 to 2\n"),
        (after_2("A\nW\t1\nA\t1\t5\n"), "R\t5\t4\n", "line 4: 5 gone, kettle withdrawn\n  entry 1 names kettle 1, which line 3 withdraws\n"),
        (after_2("W\t2\nW\t2\n"), "R\t5\t3\n", "line 3: 5 gone, kettle withdrawn\n  the line names kettle 2, which line 2 withdraws\n"),
        (after_2("A\t1\t9\t2\t0\n"), "R\t6\t2\n", "line 2: 6 worth, not 1 to 1,000,000\n  entry 2 names kettle 2 with worth 0\n"),
        (after_2("A\t2\t5\t1\t5\n"), "R\t7\t2\n", "line 2: 7 order, kettle not above the entry before\n  entry 2 names kettle 1 after kettle 2\n"),
        (after_2("W\t1\t3\n"), "R\t4\t2\n", "line 2: 4 unknown, kettle not 1 to k\n  number 2 of the line is kettle 3; there are kettles 1 to 2\n"),
        (after_2("W\t1\t2\nA\t2\t5\n"), "R\t5\t3\n", "line 3: 5 gone, kettle withdrawn\n  entry 1 names kettle 2, which line 2 withdraws\n"),
        (after_2("W\t1\nW\t2\t1\n"), "R\t5\t3\n", "line 3: 5 gone, kettle withdrawn\n  number 2 of the line is kettle 1, which line 2 withdraws\n"),
        (after_2("W\t1\t1\n"), "R\t7\t2\n", "line 2: 7 order, kettle not above the entry before\n  number 2 of the line is kettle 1 after kettle 1\n"),
        (after_2("P\t3\t9\n"), "R\t4\t2\n", "line 2: 4 unknown, kettle not 1 to k\n  the line names kettle 3; there are kettles 1 to 2\n"),
        (after_2("P\t0\t1\n"), "R\t4\t2\n", "line 2: 4 unknown, kettle not 1 to k\n  the line names kettle 0; there are kettles 1 to 2\n"),
        (after_2("P\t1\t2\nP\t1\t9\n"), "R\t7\t3\n", "line 3: 7 order, kettle not above the entry before\n  the line names kettle 1 after kettle 1 of the line before\n"),
        (after_2("P\t2\t2\nP\t1\t2\nA\n"), "R\t7\t3\n", "line 3: 7 order, kettle not above the entry before\n  the line names kettle 1 after kettle 2 of the line before\n"),
        (after_2("P\t1\t9\n"), "R\t16\t2\n", "line 2: 16 places, a count outside 1 to 8, or over 64 in all\n  the line gives kettle 1 9 places: a kettle has 1 to 8\n"),
        (after_2("P\t1\t8\nP\t2\t0\n"), "R\t16\t3\n", "line 3: 16 places, a count outside 1 to 8, or over 64 in all\n  the line gives kettle 2 0 places: a kettle has 1 to 8\n"),
        (b"K\t58\t1\t10\nP\t58\t8\nA\t1\t5\n".into(), "R\t16\t1\n", "line 1: 16 places, a count outside 1 to 8, or over 64 in all\n  with line 2 there are 65 places in all, each kettle without a P line counting one: there may be 64\n"),
        (b"K\t60\t1\t10\nP\t1\t1\nP\t2\t5\nP\t3\t8\njunk".into(), "R\t16\t1\n", "line 1: 16 places, a count outside 1 to 8, or over 64 in all\n  with line 4 there are 71 places in all, each kettle without a P line counting one: there may be 64\n"),
        (after_2("P\t1\t2\nA\t1\t5\nA\t3\t5\n"), "R\t4\t4\n", "line 4: 4 unknown, kettle not 1 to k\n  entry 1 names kettle 3; there are kettles 1 to 2\n"),
        (served_of_length(65_537), "R\t15\t0\n", "15 long, text above 65,536 bytes\n"),
        (vec![0; 300_000], "R\t15\t0\n", "15 long, text above 65,536 bytes\n"),
    ];
    for (text, page, words) in cases {
        assert_eq!(planned(&text), (1, page.into(), words.into()));
    }
}

#[test]
fn each_bad_line_in_words() {
    let cases: [(&[u8], u64, &[&str]); 34] = [
        (b"", 1, &["the text is empty"]),
        (b"K\t2\t1\t10\r\nA\t1\t5\r\n", 1, &["a carriage return (byte 13): the text has Windows line ends, CRLF; save it with line ends LF"]),
        (b"K\t2\t1\t10\rA\t1\t5\r", 1, &["a carriage return (byte 13) stands in it", "without a newline"]),
        (b"K\t2\t1\t10\nA\t1\t5\r\n", 2, &["Windows line ends"]),
        (b"\xef\xbb\xbfK\t2\t1\t10\n", 1, &["a byte order mark stands before it: save the text as UTF-8 without byte order mark"]),
        (b"\xef\xbb\xbfK\t2\t1\t10\r\n", 1, &["a byte order mark", "a carriage return"]),
        (b"\xff\xfeK\0\t\x002\0\n\0", 1, &["the text is UTF-16"]),
        (b"K\t2\t1\t10\n\n", 2, &["it is blank: remove it"]),
        (b"K\t2\t1\t10\n\t\t\nA\n", 2, &["it is blank: remove it"]),
        (b"K,2,1,10\n", 1, &["a comma stands in it: fields are parted by one tab"]),
        (b"K\t2\t1\t10\nA\t1\t1,000\n", 2, &["numbers have no commas"]),
        (b"K;2;1;10\n", 1, &["a semicolon stands in it"]),
        (b"K\t2\t1\t10\nA 1 5\n", 2, &["a space stands in it: fields are parted by one tab"]),
        (b"K\t2\t1\t10\t\t\n", 1, &["it ends with a tab"]),
        (b"K\t2\t1\t10\nA\t1\t5", 2, &["the text ends without a newline"]),
        (b"K\t2\t1\t10\nA\t1\t05\n", 2, &["the number 05 has a leading zero"]),
        (b"K\t2\t1\t10\nA\t1\t10000000\n", 2, &["the number 10000000 has more than 7 digits"]),
        (b"K\t2\t1\t10\nA\t1\t1.50\n", 2, &["the number 1.50 has a point"]),
        (b"K\t2\t1\t10\nA\t1\t-5\n", 2, &["the number -5 has a sign"]),
        (b"K\t2\t1\t10\na\t1\t5\n", 2, &["the letter a is lower-case: write A"]),
        (b"K\t2\t1\t10\nK\t2\t1\t10\n", 2, &["a K line stands here, and only the first line is one"]),
        (b"A\t1\t5\n", 1, &["it begins with A: the first line begins with K"]),
        (b"K\t2\t1\n", 1, &["a K line has three numbers"]),
        (b"K\t2\t1\t10\nA\t1\n", 2, &["the last has no worth"]),
        (b"K\t2\t1\t10\nW\n", 2, &["a W line has one number or more"]),
        (b"K\t2\t1\t10\nP\t1\n", 2, &["a P line has two numbers, a kettle and its places"]),
        (b"K\t2\t1\t10\nP\t1\t2\t3\n", 2, &["a P line has two numbers, a kettle and its places"]),
        (b"K\t2\t1\t10\nP\t1\t2\t2\t2\n", 2, &["a P line has two numbers, a kettle and its places"]),
        (b"K\t2\t1\t10\np\t1\t2\n", 2, &["the letter p is lower-case: write P"]),
        (b"K\t2\t1\t10\nA\nP\t1\t2\n", 3, &["a P line stands here: P lines stand right after the K line, before any A or W"]),
        (b"K\t2\t1\t10\nP\t1\t2\nW\t1\nP\t2\t2\n", 4, &["a P line stands here: P lines stand right after the K line, before any A or W"]),
        (b"K\t2\t1\t10\nP\t1\t2\nY\t1\n", 3, &["it begins with Y: a line begins with A or W, or right after the K line with P"]),
        (b"P\t1\t2\nK\t2\t1\t10\n", 1, &["it begins with P: the first line begins with K"]),
        (b"K\t2\t1\t10\nP\t1\t02\n", 2, &["the number 02 has a leading zero"]),
    ];
    for (text, line, reasons) in cases {
        let (status, page, words) = planned(text);
        let head = format!("line {line}: 14 line, text not of the form below\n  ");
        assert_eq!((status, page), (1, format!("R\t14\t{line}\n")), "{text:?}");
        assert!(words.starts_with(&head), "{text:?}: {words}");
        assert_eq!(words.lines().count(), reasons.len() + 2, "{text:?}: {words}");
        for reason in reasons {
            assert!(words.contains(reason), "{text:?}: {words}");
        }
    }
}

#[test]
fn help() {
    let (status, page, words) = own_with(&["--help"], b"");
    assert_eq!((status, words.as_str()), (0, ""));
    let parts = ["./plan [FILE]", "--page", "  K  ", "  P  kettle  places", "  A  ", "  W  "];
    for part in parts.iter().chain(&["  P  batch", "  0  ", "  1  ", "  2  "]) {
        assert!(page.contains(part), "{part}");
    }
}

#[test]
fn a_command_that_is_misspelt() {
    let known = "; ./plan --help says how it is used\n";
    nothing_planned(
        own_with(&["--quick"], CASE_1),
        &format!("plan: unknown option --quick{known}"),
    );
    nothing_planned(own_with(&["a", "b"], CASE_1), &format!("plan: one sheet at a time{known}"));
}

// ---- what it reads and writes

#[test]
fn a_file_from_any_folder_and_by_a_link() {
    let folder = Folder::new();
    fs::write(folder.join("evening"), CASE_1).expect("a file");
    fs::write(folder.join("-evening"), CASE_1).expect("a file");
    symlink(own().get_program(), folder.join("first")).expect("a link");
    symlink("first", folder.join("second")).expect("a link");
    for arguments in [&["evening"][..], &["--", "-evening"], &["./-evening"]] {
        let mut command = Command::new(folder.join("second"));
        command.args(arguments).current_dir(&folder.0);
        assert_eq!(given(command, b"K\n"), served());
    }
    let mut command = own();
    command.arg(folder.join("evening")).current_dir(&folder.0);
    assert_eq!(given(command, b"K\n"), served());
}

#[test]
fn a_file_that_cannot_be_read() {
    let folder = root().join("examples");
    let named = folder.to_str().expect("a name");
    nothing_planned(own_with(&[named], CASE_1), &format!("plan: {named}: this is a folder\n"));
    nothing_planned(own_with(&["no"], CASE_1), "plan: no: there is no such file\n");
}

#[test]
fn an_input_that_cannot_be_read() {
    let unread = |came: Came| {
        assert_eq!((came.0, came.1.as_str()), (2, ""));
        assert!(came.2.starts_with("plan: input cannot be read"), "{}", came.2);
        assert_eq!(came.2.lines().count(), 1);
    };
    unread(given(by_shell("<&-"), CASE_1));
    let folder = File::open(root()).expect("the tree's folder");
    unread(came(own().stdin(Stdio::from(folder)).output().expect("the command")));
    unread(given(at_terminal("lost", &root().join("plan")), CASE_1));
}

#[test]
fn the_end_is_given_once_at_a_terminal() {
    own();
    assert_eq!(given(at_terminal("once", &root().join("plan")), CASE_1), served());
}

#[test]
fn a_lost_output() {
    nothing_planned(given(by_shell("> /dev/full"), CASE_1), "plan: output lost\n");
    nothing_planned(given(by_shell(">&-"), CASE_1), "plan: output lost\n");
    nothing_planned(given(by_shell("--help > /dev/full"), CASE_1), "plan: output lost\n");
}

// ---- what it runs

#[test]
fn a_tree_that_is_not_proved() {
    let words =
        "rt: sheet NOT PROVED\nplan: the program is not proved as the tree stands: no plan\n";
    for status in 1..=3 {
        let tree = tree(&format!("echo 'rt: sheet NOT PROVED' >&2; exit {status}"));
        nothing_planned(given(command(&tree), CASE_1), words);
    }
}

/// Of what an `rt` writes that says of no program that it runs, nothing is printed.
#[test]
fn a_page_of_no_program() {
    for lines in ["out/sheet", "out/sheet; echo 'rt: running out/other' >&2"] {
        let (status, page, words) = given(command(&tree(lines)), CASE_1);
        assert_eq!((status, page.as_str()), (2, ""));
        assert!(words.ends_with("plan: the check left no program\n"), "{words}");
    }
}

#[test]
fn a_tree_that_cannot_be_written() {
    let tree = tree(UNCHANGED);
    let out = tree.join("crates/sheet/out");
    fs::remove_dir_all(&out).and_then(|()| fs::write(&out, "")).expect("a file");
    let out = fs::canonicalize(&out).expect("the file");
    let words = format!("plan: nothing can be written to {}\n", out.display());
    nothing_planned(given(command(&tree), CASE_1), &words);
}

#[test]
fn a_tree_without_the_crate() {
    let tree = tree(UNCHANGED);
    fs::remove_dir_all(tree.join("crates/sheet")).expect("a folder");
    let (status, page, words) = given(command(&tree), CASE_1);
    assert_eq!((status, page.as_str()), (2, ""));
    assert!(words.ends_with("plan: the tree has no crate sheet\n"), "{words}");
}

/// What an `rt` says that proves a crate.
const PROVES: &str =
    "printf '%s\\n' 'crate text: modules loaded=1 checked=2' 'logic=proved functions=3' >&2; ";

#[test]
fn progress_of_what_is_proved_afresh() {
    let (status, page, words) = given(command(&tree(&[PROVES, UNCHANGED].concat())), CASE_1);
    assert_eq!((status, page.as_str(), words.as_str()), (0, PLAN_1, "plan: text proved\n"));
}

#[test]
fn a_program_that_is_built_first() {
    let tree = tree(&[PROVES, "mv ../../kept out/sheet; ", UNCHANGED].concat());
    let built = program(&tree, "sheet");
    fs::remove_file(built.with_extension("stamp")).expect("a stamp");
    fs::rename(built, tree.join("kept")).expect("the program");
    let (status, page, words) = given(command(&tree), CASE_1);
    assert_eq!((status, page.as_str()), (0, PLAN_1), "{words}");
    let first =
        "plan: the program is proved and built first; from nothing that takes some minutes\n";
    assert_eq!(words, [first, "plan: text proved\n"].concat());
}

/// A program that is gone is built again, though its stamp says that it was built.
#[test]
fn a_program_that_was_removed() {
    let builds = format!("[ -x out/sheet ] || {{ mv ../../kept out/sheet; {PROVES}}}; {UNCHANGED}");
    let tree = tree(&builds);
    fs::rename(program(&tree, "sheet"), tree.join("kept")).expect("the program");
    let (status, page, words) = given(command(&tree), CASE_1);
    assert_eq!((status, page.as_str(), words.as_str()), (0, PLAN_1, "plan: text proved\n"));
    let tree = self::tree("exit 0");
    fs::remove_file(program(&tree, "sheet")).expect("the program");
    nothing_planned(given(command(&tree), CASE_1), "plan: the check left no program\n");
}

#[test]
fn a_program_that_ends_badly() {
    for (lines, words) in [
        ("cat; echo 'sheet: output lost' >&2", "sheet: output lost\n"),
        ("cat; exit 3", "plan: the program ended with status 3\n"),
        ("cat >/dev/null", "plan: the program printed nothing\n"),
    ] {
        let tree = tree(UNCHANGED);
        fs::remove_file(program(&tree, "sheet")).expect("the program");
        script(&program(&tree, "sheet"), lines);
        nothing_planned(given(command(&tree), CASE_1), words);
    }
}

#[test]
fn a_command_that_is_stopped() {
    for signal in ["HUP", "INT", "TERM"] {
        let tree = tree(&format!("kill -{signal} $PPID"));
        nothing_planned(given(stoppable(&tree), CASE_1), "");
    }
}

/// Everything that ./plan uses but `rt`.
#[test]
fn no_rt() {
    let tree = tree(UNCHANGED);
    fs::remove_file(tree.join("tools/rt")).expect("the stand-in");
    let paths = env::var_os("PATH").expect("PATH");
    for tool in ["bash", "cat", "dirname", "head", "mktemp", "rm", "sed"] {
        let found =
            env::split_paths(&paths).map(|folder| folder.join(tool)).find(|file| file.is_file());
        symlink(found.expect("a usual tool"), tree.join("tools").join(tool)).expect("a link");
    }
    let mut command = command(&tree);
    command.env("PATH", tree.join("tools"));
    let words = "plan: there is no command rt, which proves and builds the program: it comes with the Rattle kit\n";
    nothing_planned(given(command, CASE_1), words);
}
