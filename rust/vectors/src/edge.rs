//! The lines with given answers. For 01 a JSON object each: taken are the include calls; for the expansion call the passes over texts that
//! include nothing; the definitions calls; and the passes. For 02 `REQUEST | WHAT -> ANSWER`: taken are the lookups, request E1, and the test
//! loads, request E2. The given answer is written, and must be the one that the oracle has.
use crate::record::Record;
use crate::{definitions, expansion, includes, loads, lookups, pass};
use oracle::definitions::work_needed;
use oracle::load::{ROOM, pieces};
use oracle::lookup::{KINDS, Looked};
use oracle::pass::Rooms;
use oracle::{Tree, Value, sheet};
use std::{fs, io};

/// Where a line gives no length of the buffer: so many bytes more than the text; for a refused call so many.
const MORE: usize = 5;
const ENOUGH: usize = 64;

pub fn lookups(path: &str) -> io::Result<Vec<Record>> {
    of_request("E1", path, lookup_case)
}

pub fn loads(path: &str) -> io::Result<Vec<Record>> {
    of_request("E2", path, load_case)
}

/// The lines of a request of 02: `WHAT -> ANSWER`.
fn of_request(request: &str, path: &str, record: fn(&str, &str) -> Record) -> io::Result<Vec<Record>> {
    let lines = fs::read_to_string(path)?;
    let of_it = lines.lines().filter_map(|line| line.strip_prefix(request)?.strip_prefix(" | "));
    let parted = of_it.map(|line| line.trim_end().split_once(" -> ").expect("an answer"));
    let records: Vec<Record> = parted.map(|(what, given)| record(what, given)).collect();
    assert!(!records.is_empty(), "{path}: no line of {request}");
    Ok(records)
}

pub fn includes(path: &str) -> io::Result<Vec<Record>> {
    let lines = fs::read_to_string(path)?;
    let include_calls = lines.lines().filter(|line| value(line, "fn") == "includes");
    Ok(include_calls.map(include_case).collect())
}

pub fn expansions(path: &str) -> io::Result<Vec<Record>> {
    let lines = fs::read_to_string(path)?;
    Ok(lines.lines().filter(|line| value(line, "fn") == "pass").filter_map(expansion_case).collect())
}

/// All whose buffers the program has: one with a sheet buffer of 70,000 bytes is left out.
pub fn definitions(path: &str) -> io::Result<Vec<Record>> {
    let lines = fs::read_to_string(path)?;
    Ok(lines.lines().filter(|line| value(line, "fn") == "definitions").filter_map(definitions_case).collect())
}

pub fn passes(path: &str) -> io::Result<Vec<Record>> {
    let lines = fs::read_to_string(path)?;
    Ok(lines.lines().filter(|line| value(line, "fn") == "pass").map(pass_case).collect())
}

/// `b'PATH' -> ('KIND', b'TEXT')`, or a case in words with its number. The sheet is told by the answers: d.a is the text A, n is none, x is empty.
fn lookup_case(what: &str, given: &str) -> Record {
    let text = |t: &str| Value::Text(t.into());
    let inner = Tree::from([(b"a".to_vec(), text("A"))]);
    let mut tree = Tree::from([
        (b"d".to_vec(), Value::Dictionary(inner)),
        (b"n".to_vec(), Value::None),
        (b"x".to_vec(), text("")),
    ]);
    let (path, room): (&[u8], usize) = match what {
        "text of 3 into 2 bytes" => {
            tree.insert(b"x".to_vec(), text("abc"));
            (b"x", 2)
        }
        "dictionary into 0 bytes" => (b"d", 0),
        "broken sheet and broken text" => {
            tree.insert(b"\x80".to_vec(), text(""));
            (b"\x80", MORE)
        }
        path => (quoted(path).as_bytes(), MORE),
    };
    let case = lookups::Case { sheet: sheet::encode(&tree).expect("a sheet"), path: path.to_vec(), room };
    let wanted = lookups::wanted(&case);
    match given.strip_prefix("('").and_then(|rest| rest.strip_suffix(')')?.split_once("', ")) {
        Some((kind, text)) => {
            let kind = KINDS.iter().position(|k| *k == kind).expect("a kind") as u8;
            assert_eq!(wanted, Ok(Looked { kind, text: quoted(text).into() }), "{what}");
        }
        None => assert_eq!(wanted.as_ref().err().copied().unwrap_or(0).to_string(), given, "{what}"),
    }
    lookups::record(&case, &wanted)
}

/// `seed SEED LIST`, and more in words. The answer: how many pieces there are and the text, `(COUNT, b'TEXT')`; the length of the text; or, for an
/// output of so many bytes, ` into ROOM`, the number.
fn load_case(what: &str, given: &str) -> Record {
    let words: Vec<&str> = what.split([' ', ',']).collect();
    let seed = match words[1] {
        "2^32-1" => u32::MAX,
        seed => seed.parse().expect("a seed"),
    };
    let room = what.split_once(" into ").map_or(ROOM, |(_, room)| room.parse().expect("a length"));
    let case = loads::Case { seed, definitions: words[2] == "definitions", room };
    let wanted = loads::wanted(&case);
    let here = match &wanted {
        Ok(text) if given.starts_with('(') => {
            let text = String::from_utf8_lossy(text).replace('\n', "\\n");
            format!("({}, b'{text}')", pieces(seed).len())
        }
        Ok(text) => text.len().to_string(),
        Err(number) => number.to_string(),
    };
    assert_eq!(here, given, "{what}");
    loads::record(&case, &wanted)
}

/// What stands between `b'` and `'`, where nothing is escaped.
fn quoted(bytes: &str) -> &str {
    let inner = bytes.strip_prefix("b'").and_then(|rest| rest.strip_suffix('\'')).unwrap_or_else(|| panic!("{bytes}"));
    assert!(!inner.contains('\\'), "{bytes}");
    inner
}

fn definitions_case(line: &str) -> Option<Record> {
    let bytes = |key: &str| unhex(value(line, key));
    let (bundle, path) = (bytes("bundle"), bytes("path"));
    let [left, work] = caps(line);
    let left = left.unwrap_or_else(|| definitions::longest(&bundle, &path) + MORE);
    let case = definitions::Case { bundle, path, left, work: work.unwrap_or(work_needed(left)) };
    let number: u8 = value(line, "n").parse().expect("a number");
    let given = if number == 0 { Ok(bytes("left")) } else { Err(number) };
    assert_eq!(definitions::wanted(&case), given, "{line}");
    definitions::fits(&case).then(|| definitions::record(&case, &given))
}

fn pass_case(line: &str) -> Record {
    let bytes = |key: &str| unhex(value(line, key));
    let (bundle, folder, text, sheet) = (bytes("bundle"), bytes("folder"), bytes("text"), bytes("sheet"));
    let enough = pass::enough(&bundle, &folder, &text, &sheet);
    let [middle, out, left] = caps(line);
    let rooms = Rooms {
        middle: middle.unwrap_or(enough.middle + MORE),
        out: out.unwrap_or(enough.out + MORE),
        left: left.unwrap_or(enough.left + MORE),
    };
    let case = pass::Case { bundle, folder, text, sheet, rooms };
    let number: u8 = value(line, "n").parse().expect("a number");
    let closed = value(line, "closed") == "true";
    let given =
        if number == 0 { Ok(pass::Done { out: bytes("out"), left: bytes("left"), closed }) } else { Err(number) };
    assert_eq!(pass::wanted(&case), given, "{line}");
    pass::record(&case, &given)
}

fn include_case(line: &str) -> Record {
    let bytes = |key: &str| unhex(value(line, key));
    let number: u8 = value(line, "n").parse().expect("a number");
    let out = bytes("out");
    let enough = if number == 0 { out.len() + MORE } else { ENOUGH };
    let room = match value(line, "cap") {
        "null" => enough,
        cap => cap.parse().expect("a length"),
    };
    let case = includes::Case { bundle: bytes("bundle"), folder: bytes("folder"), text: bytes("text"), room };
    let given = if number == 0 { Ok(out) } else { Err(number) };
    assert_eq!(includes::wanted(&case), given, "{line}");
    includes::record(&case, &given)
}

/// A pass whose text holds no mark of an include, with a middle buffer that is large enough and the empty folder: it is the expansion.
fn expansion_case(line: &str) -> Option<Record> {
    let bytes = |key: &str| unhex(value(line, key));
    let (bundle, text, sheet) = (bytes("bundle"), bytes("text"), bytes("sheet"));
    let [middle, out, left] = caps(line);
    let included = str::from_utf8(&text).is_ok_and(|text| text.contains("include"));
    if included || middle.is_some() || !bytes("folder").is_empty() {
        return None;
    }
    let (written, longest) = expansion::lengths(&bundle, &text, &sheet);
    let (out, left) = (out.unwrap_or(written + MORE), left.unwrap_or(longest + MORE));
    let case = expansion::Case { bundle, text, sheet, out, left };
    let number: u8 = value(line, "n").parse().expect("a number");
    let given = if number == 0 { Ok((bytes("out"), bytes("left"))) } else { Err(number) };
    assert_eq!(expansion::wanted(&case), given, "{line}");
    Some(expansion::record(&case, &given))
}

/// The lengths of a call's buffers, where they are given.
fn caps<const N: usize>(line: &str) -> [Option<usize>; N] {
    let list = line.split("\"caps\": [").nth(1).and_then(|rest| rest.split(']').next()).expect("caps");
    let caps: Vec<Option<usize>> = list.split(", ").map(|cap| cap.parse().ok()).collect();
    caps.try_into().expect("as many lengths as buffers")
}

/// What stands behind the key, without quotes.
fn value<'a>(line: &'a str, key: &str) -> &'a str {
    let head = format!("\"{key}\": ");
    let at = line.find(&head).unwrap_or_else(|| panic!("no {key} in {line}"));
    let rest = &line[at + head.len()..];
    match rest.strip_prefix('"') {
        Some(text) => text.split('"').next().expect("a text"),
        None => rest.split([',', '}']).next().expect("a number"),
    }
}

fn unhex(text: &str) -> Vec<u8> {
    (0..text.len()).step_by(2).map(|i| u8::from_str_radix(&text[i..i + 2], 16).expect("hexadecimal")).collect()
}
