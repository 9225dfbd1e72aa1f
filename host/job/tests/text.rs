//! Readable jobs: what a text says, and how a faulty one is told.

use job::{
    listing::Origin,
    recorded::bytes_of_hex,
    text::{self, Variables},
};

/// A root and two parts, whatever the job.
struct TwoParts;

impl Variables for TwoParts {
    fn origins(&mut self, _: &[u8]) -> Vec<Origin> {
        vec![Origin::Root, Origin::Part(1), Origin::Part(0), Origin::Forbid(0), Origin::Forbid(0)]
    }
}

fn bytes(text: &str) -> Vec<u8> {
    text::read(text, &mut TwoParts).unwrap_or_else(|error| panic!("{error}"))
}

fn error(text: &str) -> String {
    text::read(text, &mut TwoParts).expect_err("a fault").to_string()
}

#[test]
fn each_record_has_its_words() {
    let cases = [
        ("name n", "0100"),
        ("name n several", "0101"),
        (
            "name n\npart a of n ready unknown 1 locked favoured excluded 258",
            "0100 0200001f01000201",
        ),
        ("name n\npart a of n unknown-reason 1 exclusion-reason 2", "0100 0200000001000200"),
        ("name n\nrange r of n", "0100 030000"),
        ("member #1 of #2", "0402000100"),
        ("union u\nunion-member #3 of u", "05 0600000300"),
        ("condition c on #4", "070400"),
        ("condition c of #1 and #2", "080001000200"),
        ("condition c of #1 or #2", "080101000200"),
        ("require range #1", "09ffff000100ffff"),
        ("require union #1 by #2 if #3", "0902000101000300"),
        ("constrain #1", "0affff0100"),
        ("constrain #1 by #2", "0a02000100"),
        ("add root", "20ffff"),
        ("add #2", "200200"),
        ("draw #2", "210200"),
        ("run 258", "220201"),
        ("decide #2 true at 1", "230200010100"),
        ("decide root false at 1", "230000000100"),
        ("undo 1", "240100"),
        ("bytes 00 ff01", "00ff01"),
    ];
    for (text, hex) in cases {
        let job = bytes_of_hex(&hex.replace(' ', "")).expect("hexadecimal");
        assert_eq!(bytes(text), job, "{text}");
        let written = text::write(&job, &mut TwoParts);
        assert_eq!(bytes(&written), job, "{written}");
    }
}

#[test]
fn variables_are_found_by_what_they_stand_for() {
    let job =
        bytes("name n\npart a of n\npart b of n\ndecide b true at 1\ndecide forbid n 1 false at 1");
    assert_eq!(job[18..], [35, 1, 0, 1, 1, 0, 35, 4, 0, 0, 1, 0]);
}

#[test]
fn comments_and_empty_lines_are_nothing() {
    assert_eq!(bytes("// a job\n\n  run 1 // once\n"), [34, 1, 0]);
}

#[test]
fn errors_name_the_line() {
    let cases = [
        ("\nnaem n", "line 2: no record begins with \"naem\""),
        ("name", "line 1: what the name is called is missing"),
        ("name n\nname n", "line 2: a name is already called \"n\""),
        ("name root", "line 1: nothing can be called \"root\""),
        ("part a of n", "line 1: no name is called \"n\" here"),
        ("name n\npart a n", "line 2: \"of\" is missing"),
        ("name n\npart a of n raedy", "line 2: a part cannot be \"raedy\""),
        ("require r", "line 1: no range or union is called \"r\" here"),
        ("union u\nconstrain u", "line 2: \"u\" is a union, not a range"),
        ("run", "line 1: a level is missing"),
        ("run soon", "line 1: a level should be a number up to 65535, not \"soon\""),
        ("run 65536", "line 1: a level should be a number up to 65535, not \"65536\""),
        ("run 1 2", "line 1: \"2\" is too much"),
        ("decide root maybe at 1", "line 1: \"maybe\" should be \"true\" or \"false\""),
        ("name n\ndecide one n true at 1", "line 2: \"one\" has no variable here"),
        ("bytes 0", "line 1: \"0\" is not hexadecimal"),
    ];
    for (text, message) in cases {
        assert_eq!(error(text), message, "{text}");
    }
}

/// Lines put together from the language's own words: they are read or told, and what is read has a
/// text of its own.
#[test]
fn any_words_are_read_or_told() {
    let words: Vec<&str> = "name part range member union union-member condition require constrain \
        add draw run decide undo bytes of on by if and or at true false several ready unknown root \
        one forbid a #0 1 0102"
        .split_whitespace()
        .collect();
    let mut state: u64 = 1;
    let mut below = |end: usize| {
        state = state.wrapping_mul(6_364_136_223_846_793_005).wrapping_add(1);
        (state >> 33) as usize % end
    };
    for _ in 0..20_000 {
        let mut text = "name a\npart a of a\nrange a of a\ncondition a on a\n".to_string();
        for _ in 0..below(4) {
            let line: Vec<&str> = (0..below(7)).map(|_| words[below(words.len())]).collect();
            text += &(line.join(" ") + "\n");
        }
        match text::read(&text, &mut TwoParts) {
            Ok(job) => assert_eq!(bytes(&text::write(&job, &mut TwoParts)), job, "{text}"),
            Err(error) => assert!(error.line > 4, "{error}"),
        }
    }
}
