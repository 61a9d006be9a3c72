//! The report as text: in words, and in JSON lines.

mod calls;

use calls::{give_back, lent, WEEK, WEEK_ALL, WEEK_IN_JSON, WEEK_IN_WORDS};
use cavernlull::{Card, Handle, Request, Totals, MOST_RETURNS};
use planners::json::quoted;
use planners::{report, Form};
use std::collections::BTreeSet;

const FORMS: [Form; 3] = [Form::Words, Form::AllInWords, Form::Json];

fn week(form: Form) -> String {
    report(WEEK, Card::blank(15), Totals::new(), form).expect("the sample is in order")
}

/// The reports beside the sample are those that the program gives.
#[test]
fn the_sample_has_its_reports() {
    assert_eq!(week(Form::Words), WEEK_IN_WORDS);
    assert_eq!(week(Form::AllInWords), WEEK_ALL);
    assert_eq!(week(Form::Json), WEEK_IN_JSON);
}

/// Nothing that the sample installs is in a report, in hex or as letters: neither
/// a key, nor a hash, nor a payload.
#[test]
fn no_key_no_hash_and_no_payload_is_reported() {
    let secrets = [
        "key of a course!",
        "SHA-1 of one module ",
        "brazing, module 1",
        "welding, module 7",
        "cutting, module 3",
    ];
    for secret in secrets {
        let hex: String = secret.bytes().map(|byte| format!("{byte:02x}")).collect();
        assert!(WEEK.to_lowercase().contains(&hex), "{secret} is installed");
        for text in FORMS.map(week) {
            assert!(!text.contains(&secret[..6]), "{secret}");
            assert!(!text.to_lowercase().contains(&hex[..12]), "{secret}");
        }
    }
}

#[test]
fn words_have_returns_and_what_has_no_reply() {
    let text = week(Form::Words);
    assert_eq!(text.matches("call ").count(), 11);
    assert_eq!(text.matches(" is back").count(), 6);
    assert_eq!(text.matches(" is not back: Count Raised\n").count(), 3);
    assert!(!text.contains("Setup"), "{text}");
    assert!(text.ends_with("\n  total -8 in 4 returns\n"), "{text}");
}

/// One start and one return are not many.
#[test]
fn words_are_singular_and_plural() {
    let sent = [Some(8), Some(10), Some(9), None, Some(7)];
    let lines = (0x41..)
        .zip(sent)
        .map(|(under, count)| give_back(under, count));
    let text: String = lines.collect();
    let counts = [Some(9), Some(9), Some(9), None];
    let report = report(&text, lent(&counts), Totals::new(), Form::Words);
    let expected = "\
call 1, line 1: AAAAAAAAAA is back, 1 start used; total -1 in 1 return
call 2, line 2: BBBBBBBBBB is not back: Count Raised
call 3, line 3: CCCCCCCCCC is back, no start used; total -1 in 2 returns
call 4, line 4: DDDDDDDDDD is back without a count: not counted
call 5, line 5: EEEEEEEEEE is not back: Handle Not Found

Period 1, 5 calls
  used         1 start, in 1 return
  unchanged    1 return
  not counted  0 back already, 1 without a count
  refused      1 return with Count Raised, 1 with another status
  no reply     0 calls
  total -1 in 2 returns
";
    assert_eq!(report.as_deref(), Ok(expected));
}

#[test]
fn words_say_what_was_taken_up_and_that_a_total_is_full() {
    let from = Totals::from_parts(-40, MOST_RETURNS - 1);
    let text = give_back(0x41, Some(7)) + &give_back(0x42, Some(9));
    let report = report(&text, lent(&[Some(9), Some(9)]), from, Form::Words).unwrap();
    assert!(report.contains("\n  taken up     total -40 in 29999 returns\n"));
    assert!(report.contains("\n  total -42 in 30000 returns\n  The total is full: note it."));
    assert!(report.contains("\nPeriod 2, 1 call\n  used         0 starts, in 0 returns\n"));
    assert!(report.ends_with("\n  total 0 in 1 return\n"), "{report}");
    assert_eq!(report.matches("taken up").count(), 1);
}

/// A handle is shown as letters where it can be, and else in hex; a kind that
/// there is not, by its number.
#[test]
fn handles_and_kinds_are_shown() {
    let text = give_back(7, None) + "2a 80 00 00\n25 80 00 00\n";
    let report = report(&text, Card::blank(1), Totals::new(), Form::AllInWords).unwrap();
    let lines: Vec<&str> = report.lines().take(3).collect();
    let expected = [
        "call 1, line 1: 07070707070707070707 is not back: Handle Not Found",
        "call 2, line 2: kind 10: Request Not Supported",
        "call 3, line 3: a course is not back: Parameter Failed",
    ];
    assert_eq!(lines, expected);
}

/// The members of an object on one line, each a name and its value as it stands.
/// Strings are the only values in which a comma or a colon can stand.
fn members(line: &str) -> Vec<(String, String)> {
    let inner = line
        .strip_prefix('{')
        .and_then(|rest| rest.strip_suffix('}'));
    let (mut rest, mut members) = (inner.expect("an object"), Vec::new());
    while !rest.is_empty() {
        let (name, after) = string(rest);
        let after = after.strip_prefix(':').expect("a value follows");
        let (value, after) = match after.starts_with('"') {
            true => string(after),
            false => after.split_at(after.find(',').unwrap_or(after.len())),
        };
        members.push((name.to_owned(), value.to_owned()));
        rest = after.strip_prefix(',').unwrap_or(after);
    }
    members
}

/// A string in quotes, and what follows it.
fn string(text: &str) -> (&str, &str) {
    let mut escaped = false;
    let end = text[1..].find(|c| {
        let ends = c == '"' && !escaped;
        escaped = c == '\\' && !escaped;
        ends
    });
    text.split_at(end.expect("the string ends") + 2)
}

/// A value is a string without bare control characters, a number, or one of three
/// words.
fn assert_value(value: &str) {
    let word = matches!(value, "true" | "false" | "null");
    let number = value.parse::<i64>().is_ok_and(|n| n.to_string() == value);
    let string = value.starts_with('"') && value.chars().all(|c| u32::from(c) >= 0x20);
    assert!(word || number || string, "{value}");
}

/// Every line is an object, and all lines of a sort have the same members.
#[test]
fn json_has_an_object_on_each_line() {
    let text = week(Form::Json);
    let mut shapes = BTreeSet::new();
    for line in text.lines() {
        let members = members(line);
        members.iter().for_each(|(_, value)| assert_value(value));
        let names: Vec<String> = members.iter().map(|(name, _)| name.clone()).collect();
        let unique: BTreeSet<&String> = names.iter().collect();
        assert_eq!(unique.len(), names.len(), "{line}");
        shapes.insert((members[0].1.clone(), names));
    }
    let sorts: Vec<&str> = shapes.iter().map(|(row, _)| row.as_str()).collect();
    assert_eq!(sorts, ["\"call\"", "\"summary\""]);
    assert_eq!(text.lines().count(), 23 + 1);
    assert!(text.ends_with("}\n"));
}

/// The member of this name.
fn member(line: &str, name: &str) -> String {
    let name = quoted(name);
    let found = members(line).into_iter().find(|(other, _)| *other == name);
    found.expect("there is such a member").1
}

/// The changes in the lines of a period add up to the total of its summary.
#[test]
fn json_adds_up() {
    let text = week(Form::Json);
    let number = |line, name| member(line, name).parse::<i64>().expect("a number");
    let (calls, summary): (Vec<&str>, Vec<&str>) = text
        .lines()
        .partition(|line| member(line, "row") == "\"call\"");
    let changes: i64 = calls.iter().map(|line| number(line, "change")).sum();
    let counted = calls
        .iter()
        .filter(|line| member(line, "counted") == "true");
    assert_eq!(changes, number(summary[0], "total"));
    assert_eq!(counted.count() as i64, number(summary[0], "returns"));
    let last = calls[calls.len() - 1];
    assert_eq!(number(last, "total"), number(summary[0], "total"));
}

/// A return that would raise a count is told by its status, and has no change.
#[test]
fn json_tells_counts_that_are_raised() {
    let text = week(Form::Json);
    let raised: Vec<&str> = text
        .lines()
        .filter(|line| member(line, "row") == "\"call\"")
        .filter(|line| member(line, "return") == "\"count raised\"")
        .collect();
    for line in &raised {
        let told = ["number", "status", "change", "counted"].map(|name| member(line, name));
        assert_eq!(told, ["0", "9", "0", "false"]);
        assert_eq!(member(line, "outcome"), "\"Count Raised\"");
    }
    let summary = text.lines().last().expect("a summary");
    assert_eq!(member(summary, "count_raised"), raised.len().to_string());
    assert_eq!((raised.len(), member(summary, "refused")), (3, "1".into()));
}

/// Quotes and backslashes in a handle are escaped, and the line stays an object.
#[test]
fn names_are_escaped() {
    let handle = Handle(*br#"a"b\c",{:}"#);
    let query = Request::RightsInformationQuery { handle };
    let text = calls::line(&query);
    let report = report(&text, Card::blank(1), Totals::new(), Form::Json).unwrap();
    let line = report.lines().next().unwrap();
    assert_eq!(member(line, "name"), r#""a\"b\\c\",{:}""#);
    assert_eq!(member(line, "outcome"), "\"Handle Not Found\"");
}

#[test]
fn strings_are_quoted_as_json_has_them() {
    for (text, expected) in [
        ("", "\"\""),
        ("plain", "\"plain\""),
        ("\"\\/", "\"\\\"\\\\/\""),
        ("\n\r\t\0\u{1f}", "\"\\u000a\\u000d\\u0009\\u0000\\u001f\""),
        ("\u{e9}\u{1f600}", "\"\u{e9}\u{1f600}\""),
    ] {
        assert_eq!(quoted(text), expected);
    }
}

/// The first mistake is all that is said.
#[test]
fn a_mistake_gives_no_report() {
    for form in FORMS {
        let mistake = report("25\n25 2\n", Card::blank(1), Totals::new(), form);
        let expected = "line 2: an odd number of hex digits, where two make a byte";
        assert_eq!(mistake, Err(expected.to_owned()));
    }
}
