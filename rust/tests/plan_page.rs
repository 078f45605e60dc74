//! The command ./plan where a page is wanted (R-2 of document 02): what it prints, its
//! statuses, and its words on standard error, which are those for a sheet.

use noughtelm_tests::both::shown;
use noughtelm_tests::gen::text::served_of_length;
use noughtelm_tests::program::root;
use noughtelm_tests::trial::*;
use std::fs;
use std::process::Command;

const PAGE_1: &str =
    "BAT KT   WORTH       GAIN\n  1  2      60          0\n  2  1      90          0\n";

/// The tree's own ./plan with --page, with its program built.
fn own_page(arguments: &[&str], text: &[u8]) -> Came {
    own_with(&[&["--page"], arguments].concat(), text)
}

/// ./plan --page of a small tree.
fn command_for_page(tree: &Folder) -> Command {
    let mut command = command(tree);
    command.arg("--page");
    command
}

fn page_served() -> Came {
    (0, PAGE_1.into(), String::new())
}

#[test]
fn a_page() {
    for arguments in [&[][..], &["-"], &["--"], &["--", "-"]] {
        assert_eq!(own_page(arguments, CASE_1), page_served(), "{arguments:?}");
    }
    let heading = PAGE_1.split_inclusive('\n').next().expect("a line");
    assert_eq!(own_page(&[], b"K\t1\t1\t2\n"), (0, heading.into(), String::new()));
}

#[test]
fn a_page_of_a_file() {
    let folder = Folder::new();
    for name in ["evening", "-evening", "--page"] {
        fs::write(folder.join(name), CASE_1).expect("a file");
    }
    let tree = tree(UNCHANGED);
    let given_in_folder = |arguments: &[&str]| {
        let mut command = command(&tree);
        command.args(arguments).current_dir(&folder.0);
        given(command, b"K\n")
    };
    for arguments in [&["evening"][..], &["--", "evening"], &["--", "-evening"], &["--", "--page"]]
    {
        let arguments = [&["--page"], arguments].concat();
        assert_eq!(given_in_folder(&arguments), page_served(), "{arguments:?}");
    }
    assert_eq!(given_in_folder(&["--", "--page"]), served());
}

#[test]
fn the_stored_pages() {
    let tree = tree(UNCHANGED);
    let mut seen = 0;
    for entry in fs::read_dir(root().join("tests/pages")).expect("stored pages") {
        let file = entry.expect("a file").path();
        if file.extension().is_none_or(|end| end != "in") {
            continue;
        }
        let page = fs::read(file.with_extension("page")).expect("its page");
        let came = given(command_for_page(&tree), &fs::read(&file).expect("a text"));
        assert_eq!(came, (0, shown(&page), String::new()), "{}", file.display());
        seen += 1;
    }
    assert!(seen >= 15, "{seen}");
}

/// A refused sheet is refused as before, in the same words.
#[test]
fn a_page_of_a_refused_text() {
    let tree = tree(UNCHANGED);
    for text in [
        &b""[..],
        b"K\t65\t1\t10\n",
        b"K\t2\t1\t10\r\n",
        b"K\t2\t1\t10\nA\t1\t5\t3\t5\n",
        b"K\t2\t1\t10\nW\t2\nW\t2\n",
        &served_of_length(65_537),
    ] {
        let (status, page, words) = given(command_for_page(&tree), text);
        assert!(status == 1 && page.starts_with("R\t") && !words.is_empty(), "{status}: {words}");
        assert_eq!((status, page, words), given(command(&tree), text));
    }
}

#[test]
fn no_page() {
    nothing_planned(own_page(&["no"], CASE_1), "plan: no: there is no such file\n");
    let folder = root().join("examples");
    let named = folder.to_str().expect("a name");
    nothing_planned(own_page(&[named], CASE_1), &format!("plan: {named}: this is a folder\n"));
    nothing_planned(given(by_shell("--page > /dev/full"), CASE_1), "plan: output lost\n");
    nothing_planned(given(by_shell("--page >&-"), CASE_1), "plan: output lost\n");
}

/// Only as the first argument is it an option.
#[test]
fn a_page_that_is_misspelt() {
    for arguments in [
        &["--page", "--page"][..],
        &["examples/evening.txt", "--page"],
        &["-", "--page"],
        &["--", "-", "--page"],
        &["--page", "a", "b"],
        &["--page", "--", "a", "b"],
        &["--page", "--quick"],
        &["--pages"],
        &["--page=a"],
    ] {
        let (status, page, words) = own_with(arguments, CASE_1);
        assert_eq!((status, page.as_str()), (2, ""), "{arguments:?}");
        assert!(words.starts_with("plan: "), "{words}");
        assert!(words.ends_with("; ./plan --help says how it is used\n"), "{words}");
        assert_eq!(words.lines().count(), 1, "{words}");
    }
}

/// What it runs is what the last check proved, as for a sheet.
#[test]
fn a_page_that_is_not_proved() {
    let tree = tree("echo \"rt: ${PWD##*/} NOT PROVED\" >&2; exit 1");
    let words =
        "rt: wall NOT PROVED\nplan: the program is not proved as the tree stands: no plan\n";
    nothing_planned(given(command_for_page(&tree), CASE_1), words);
}

/// Each by its own program.
#[test]
fn a_page_by_a_program_that_ends_badly() {
    for (lines, words) in [
        ("cat; echo 'wall: output lost' >&2", "wall: output lost\n"),
        ("cat; exit 3", "plan: the program ended with status 3\n"),
        ("cat >/dev/null", "plan: the program printed nothing\n"),
    ] {
        let tree = tree(UNCHANGED);
        fs::remove_file(program(&tree, "wall")).expect("the program");
        script(&program(&tree, "wall"), lines);
        nothing_planned(given(command_for_page(&tree), CASE_1), words);
        assert_eq!(given(command(&tree), CASE_1), served());
    }
}
