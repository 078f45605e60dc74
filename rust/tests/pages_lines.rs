//! Texts that differ from a page in one line, on both sides: bidders' lines, headings,
//! and what stands after the last one. Each has its answer beside it.

use noughtelm_tests::both::pages::read_count;
use noughtelm_tests::both::{shown, Tally};
use noughtelm_tests::ffi::MAX_PAGE;
use noughtelm_tests::model::refusal::*;
use noughtelm_tests::page::{write, Row, UNPLACED};

const HEADING: &str = "BAT KT   WORTH       GAIN\n";

/// The number of bidders, or the refusal.
fn answer(text: &[u8]) -> Result<usize, Refusal> {
    read_count(text, [131, 130, 129], &mut Tally::default())
}

fn bad(line: u64) -> Result<usize, Refusal> {
    refuse(LINE, line)
}

/// After the heading a line of the first bidder, without its byte 10.
#[test]
fn lines_of_a_bidder() {
    for (good, line) in [
        (true, "  1 64       1          1"),
        (true, "  1  1       1          0"),
        (true, "  1  1 1000000 2000000000"),
        (true, "  1 --       0          0"),
        (false, ""),
        (false, "                         "),
        (false, "  2  1       1          1"),
        (false, "  0  1       1          1"),
        (false, "128  1       1          1"),
        (false, "001  1       1          1"),
        (false, " 01  1       1          1"),
        (false, " 1   1       1          1"),
        (false, "1    1       1          1"),
        (false, "     1       1          1"),
        (false, " +1  1       1          1"),
        (false, "  1 65       1          1"),
        (false, "  1 99       1          1"),
        (false, "  1 00       1          1"),
        (false, "  1  0       1          1"),
        (false, "  1 00       0          0"),
        (false, "  1  0       0          0"),
        (false, "  1 01       1          1"),
        (false, "  1 1        1          1"),
        (false, "  1          1          1"),
        (false, "  1          0          0"),
        (false, "  1  -       0          0"),
        (false, "  1 -        0          0"),
        (false, "  1 -1       1          1"),
        (false, "  1 --       1          0"),
        (false, "  1 --       0          1"),
        (false, "  1 --       1          1"),
        (false, "  1 --      00          0"),
        (false, "  1 --       0         00"),
        (false, "  1 --      --         --"),
        (false, "  1 --                   "),
        (false, "  1  1       0          0"),
        (false, "  1  1       0          1"),
        (false, "  1  1 1000001          1"),
        (false, "  1  1 9999999          1"),
        (false, "  1  1 0000001          1"),
        (false, "  1  1      01          1"),
        (false, "  1  1 1                1"),
        (false, "  1  1     1 1          1"),
        (false, "  1  1     1.0          1"),
        (false, "  1  1  10,000          1"),
        (false, "  1  1      -1          1"),
        (false, "  1  1      0x          1"),
        (false, "  1  1                  1"),
        (false, "  1  1       1 2000000001"),
        (false, "  1  1       1 2000000010"),
        (false, "  1  1       1 3000000000"),
        (false, "  1  1       1 9999999999"),
        (false, "  1  1       1 0000000001"),
        (false, "  1  1       1         01"),
        (false, "  1  1       1         00"),
        (false, "  1  1       1 1         "),
        (false, "  1  1       1        1 1"),
        (false, "  1  1       1         -1"),
        (false, "  1  1       1           "),
        (false, "  1  1       1         1 "),
        (false, "  1  1       1 10000000000"),
        (false, "  1  1       1           1"),
        (false, "  1  1        1          1"),
        (false, "  1   1       1          1"),
        (false, "   1  1       1          1"),
        (false, "  1  1       1         1"),
        (false, "  1  1      1          1"),
        (false, "  1 1       1          1"),
        (false, " 1  1       1          1"),
        (false, "1 1 1 1"),
        (false, "  1\t 1       1          1"),
        (false, "  1  1\t      1          1"),
        (false, "  1  1       1\t         1"),
        (false, "  1-64-      1          1"),
        (false, "  1064       1          1"),
        (false, "  1 641000000          1"),
        (false, "  1 6401000000 2000000000"),
        (false, "  1 64 100000002000000000"),
        (false, "  1\0 1       1          1"),
        (false, "  1  1       1          1\r"),
        (false, "  1  1       1          1 "),
        (false, "  1  1       1          1\x0c"),
        (false, "\x0c  1  1       1          1"),
        (false, "\x0c 1  1       1          1"),
        (false, "\x0bBAT KT   WORTH       GAIN"),
        (false, "BAT KT   WORTH       GAIN"),
        (false, "\x0cBAT KT   WORTH       GAIN"),
    ] {
        let text = format!("{HEADING}{line}\n");
        let expected = if good { Ok(1) } else { bad(2) };
        assert_eq!(answer(text.as_bytes()), expected, "{line:?}");
        if !line.is_empty() {
            assert_eq!(answer(&text.as_bytes()[..text.len() - 1]), bad(2), "{line:?}, open");
        }
        let next = format!("{text}  2  1       1          1\n");
        assert_eq!(answer(next.as_bytes()), expected.map(|_| 2), "{line:?}, and another");
    }
}

/// What stands in the place of the first heading.
#[test]
fn first_headings() {
    for heading in [
        "",
        "\n",
        "\x0c",
        "\x0c\n",
        "BAT KT   WORTH       GAIN",
        "BAT KT   WORTH       GAIN\r\n",
        "BAT KT   WORTH       GAIN \n",
        " BAT KT   WORTH       GAIN\n",
        "\x0cBAT KT   WORTH       GAIN\n",
        "BAT KT   WORTH       GAIN\x0c\n",
        "bat kt   worth       gain\n",
        "BAT KT  WORTH       GAIN\n",
        "BAT KT   WORTH        GAIN\n",
        "BAT KT   WORTH      GAIN\n",
        "BAT\tKT\tWORTH\tGAIN\n",
        "\u{feff}BAT KT   WORTH       GAIN\n",
        "  1  1       1          1\n",
    ] {
        for rest in ["", "  1  1       1          1\n"] {
            let text = format!("{heading}{rest}");
            assert_eq!(answer(text.as_bytes()), bad(1), "{text:?}");
        }
    }
    assert_eq!(answer(HEADING.as_bytes()), Ok(0));
}

/// So many lines of bidders from the one after `before`, and nothing else.
fn bidders(before: usize, count: usize) -> String {
    let line = |bidder: usize| format!("{bidder:>3} --       0          0\n");
    (before + 1..=before + count).map(line).collect()
}

/// A heading "before each 40 batches, and form feed (byte 12) before each heading but
/// the first"; a text that ends with a heading but the first "stops short".
#[test]
fn later_headings() {
    let feed = format!("\x0c{HEADING}");
    for sheets in 1..=3 {
        let full = shown(&write(&vec![UNPLACED; 40 * sheets]));
        let (done, due) = (40 * sheets, 41 * sheets as u64 + 1);
        let text = |parts: &[&str]| format!("{full}{}", parts.concat());
        let next = bidders(done, 1);
        for (text, expected) in [
            (full.clone(), Ok(done)),
            (text(&[&feed, &next]), Ok(done + 1)),
            (text(&[&feed, &bidders(done, 8)]), Ok(done + 8)),
            (text(&[&next]), bad(due)),
            (text(&[HEADING, &next]), bad(due)),
            (text(&["\x0c", &feed, &next]), bad(due)),
            (text(&["\x0c\n", HEADING, &next]), bad(due)),
            (text(&["\n", &feed, &next]), bad(due)),
            (text(&["\x0c"]), bad(due)),
            (text(&["\x0c", &next]), bad(due)),
            (text(&[&feed[..26]]), bad(due)),
            (text(&[&feed.to_lowercase(), &next]), bad(due)),
            (text(&[&feed.replace('\n', "\r\n"), &next]), bad(due)),
            (text(&["\x0b", HEADING, &next]), bad(due)),
            (text(&[&next, &feed, &bidders(done + 1, 1)]), bad(due)),
            (text(&[&feed]), bad(due + 1)),
            (text(&[&feed, "\n"]), bad(due + 1)),
            (text(&[&feed, &feed, &next]), bad(due + 1)),
            (text(&[&feed, HEADING, &next]), bad(due + 1)),
            (text(&[&feed, &bidders(done + 1, 1)]), bad(due + 1)),
            (text(&[&feed, &bidders(done - 1, 1)]), bad(due + 1)),
            (text(&[&feed, &bidders(0, 1)]), bad(due + 1)),
            (text(&[&feed, &next, &feed, &bidders(done + 1, 1)]), bad(due + 2)),
            (text(&[&feed, &next, &feed]), bad(due + 2)),
            (text(&[&feed, &next, "\x0c"]), bad(due + 2)),
        ] {
            assert_eq!(answer(text.as_bytes()), expected, "{sheets}: {:?}", &text[full.len()..]);
        }
        let early = shown(&write(&vec![UNPLACED; 40 * sheets - 1]));
        assert_eq!(answer(format!("{early}{feed}{next}").as_bytes()), bad(due - 1));
        assert_eq!(answer(format!("{early}{feed}").as_bytes()), bad(due - 1));
        assert_eq!(answer(full.replacen("\n", "\x0c\n", 1).as_bytes()), bad(1));
        let after = format!("{}\x0c\n{HEADING}{next}", full.trim_end());
        assert_eq!(answer(after.as_bytes()), bad(due - 1));
    }
}

/// "batches running from 1 to at most 128"
#[test]
fn after_the_last_bidder() {
    let full = shown(&write(&[UNPLACED; 128]));
    assert_eq!((full.len(), answer(full.as_bytes())), (MAX_PAGE, Ok(128)));
    let heading = format!("\x0c{HEADING}");
    for more in
        [&bidders(128, 1)[..], &bidders(127, 1), &bidders(0, 1), &heading, "\n", "x", "\x0c"]
    {
        assert_eq!(answer(format!("{full}{more}").as_bytes()), bad(133), "{more:?}");
    }
    let rows = [Row { item: 64, weight: 1_000_000, gain: 2_000_000_000 }; 129];
    assert_eq!(answer(&write(&rows[..128])), Ok(128));
    assert_eq!(answer(&write(&rows)), bad(133));
}
