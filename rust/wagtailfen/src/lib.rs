//! Wagtailfen's proved calls, behind safe functions over slices. The calls are those of `include/wagtailfen.h`; nothing checks
//! the declarations in `raw` against it but the comparison with the reference.
//!
//! Each answer begins with `number`: 0 where the call is accepted, else the refusal of document 01, section 8 (`refusal` names
//! it). A refused call's other fields are 0, and so is every byte of its output.

pub mod raw;

/// What a path names in a sheet.
#[repr(C)]
#[derive(Clone, Copy, Debug, PartialEq, Eq)]
pub struct Resolved {
    /// 0 accepted; 3 sheet breaks its layout; 6 byte from 128 in the path; 11 text longer than the output.
    pub number: u8,
    /// `MISSING`, `NONE`, `TEXT` or `DICTIONARY`.
    pub kind: u8,
    /// How many bytes of the output a text takes, 0 for another kind. Those behind it are 0.
    pub len: usize,
}

pub const MISSING: u8 = 0;
pub const NONE: u8 = 1;
pub const TEXT: u8 = 2;
pub const DICTIONARY: u8 = 3;

/// A text that was written to an output.
#[repr(C)]
#[derive(Clone, Copy, Debug, PartialEq, Eq)]
pub struct Text {
    /// 0 accepted; 2, 4, 5, 6, 7, 11.
    pub number: u8,
    /// How many bytes of the output it takes. Those behind it are 0.
    pub len: usize,
}

/// A text that was expanded, and the sheet that it leaves.
#[repr(C)]
#[derive(Clone, Copy, Debug, PartialEq, Eq)]
pub struct Expanded {
    /// 0 accepted; 2, 3, 4, 5, 6, 8, 9, 11.
    pub number: u8,
    /// How many bytes of the output the text takes. Those behind it are 0.
    pub len: usize,
    /// How many bytes of the sheet buffer the sheet takes. Those behind it are 0.
    pub sheet_len: usize,
}

/// The bindings of a definitions file.
#[repr(C)]
#[derive(Clone, Copy, Debug, PartialEq, Eq)]
pub struct Defined {
    /// 0 accepted; 1, 2, 4, 5, 6, 7, 9.
    pub number: u8,
    /// How many bytes of the sheet buffer the sheet takes. Those behind it are 0.
    pub sheet_len: usize,
}

/// A text with its includes that was expanded, and the sheet that it leaves.
#[repr(C)]
#[derive(Clone, Copy, Debug, PartialEq, Eq)]
pub struct Passed {
    /// 0 accepted; 2 to 11.
    pub number: u8,
    /// How many bytes of the output the text takes. Those behind it are 0.
    pub len: usize,
    /// How many bytes of the sheet buffer the sheet takes. Those behind it are 0.
    pub sheet_len: usize,
    /// Is the text closed (document 01, section 6)? What follows a closed text can be given to a further pass, which starts from the
    /// sheet that is left here; where one pass over both texts is accepted, the two outputs joined are its output.
    pub closed: bool,
}

/// What a path is in a bundle.
#[repr(C)]
#[derive(Clone, Copy, Debug, PartialEq, Eq)]
pub struct Found {
    /// 0 accepted; 2 bundle breaks its layout; 4 path rule broken.
    pub number: u8,
    /// `ABSENT`, `FOLDER` or `FILE`.
    pub kind: u8,
    /// A file's content is `bundle[start..start + len]`; both are 0 otherwise.
    pub start: usize,
    pub len: usize,
}

pub const ABSENT: u8 = 0;
pub const FOLDER: u8 = 1;
pub const FILE: u8 = 2;

/// What `path` names in `sheet`: its kind, and a text's bytes at the start of `out`, and 0 behind them; all of `out` is 0 for another kind.
/// The path is split at every `.`: a binding, then keys of dictionaries.
pub fn resolve(sheet: &[u8], path: &[u8], out: &mut [u8]) -> Resolved {
    // SAFETY: all slices can be read for their lengths, and their pointers are not null; `out` can be written for its length and
    // overlaps neither of the others.
    unsafe { raw::wf_resolve(sheet.as_ptr(), sheet.len(), path.as_ptr(), path.len(), out.as_mut_ptr(), out.len()) }
}

/// What `path` is in `bundle`.
pub fn find_file(bundle: &[u8], path: &[u8]) -> Found {
    // SAFETY: both slices can be read for their lengths, and their pointers are not null.
    unsafe { raw::wf_find_file(bundle.as_ptr(), bundle.len(), path.as_ptr(), path.len()) }
}

/// Writes `text` with its marks `#include` and `#source-include` resolved from the files of `bundle` to the start of `out`, and 0
/// behind it. `folder` is the folder of the bundle where the text stands, or empty.
pub fn resolve_includes(bundle: &[u8], folder: &[u8], text: &[u8], out: &mut [u8]) -> Text {
    // SAFETY: all slices can be read for their lengths, and their pointers are not null; `out` can be written for its length and
    // overlaps none of the others.
    unsafe {
        raw::wf_resolve_includes(
            bundle.as_ptr(),
            bundle.len(),
            folder.as_ptr(),
            folder.len(),
            text.as_ptr(),
            text.len(),
            out.as_mut_ptr(),
            out.len(),
        )
    }
}

/// Writes `text` with its references and its calls of `#raw` and `#link` expanded to the start of `out`, and the sheet with the text's
/// own bindings to the start of `left`; 0 behind both. `sheet` is the one that the text begins with; files are read out of `bundle`.
pub fn preprocess_typst(bundle: &[u8], text: &[u8], sheet: &[u8], out: &mut [u8], left: &mut [u8]) -> Expanded {
    // SAFETY: all slices can be read for their lengths, and their pointers are not null; `out` and `left` can be written for their
    // lengths and overlap none of the others.
    unsafe {
        raw::wf_preprocess_typst(
            bundle.as_ptr(),
            bundle.len(),
            text.as_ptr(),
            text.len(),
            sheet.as_ptr(),
            sheet.len(),
            out.as_mut_ptr(),
            out.len(),
            left.as_mut_ptr(),
            left.len(),
        )
    }
}

/// How many bytes the work buffer of `parse_definitions` must have for a sheet buffer of this length.
pub const fn work_needed(left_len: usize) -> usize {
    16 * if left_len < 65_535 { left_len } else { 65_535 }
}

/// Writes the bindings of the definitions file at `path`, with those that it imports, as a sheet to the start of `left`, and 0 behind it.
/// `work` has at least `work_needed(left.len())` bytes, else it is refused; it is 0 afterwards.
pub fn parse_definitions(bundle: &[u8], path: &[u8], left: &mut [u8], work: &mut [u8]) -> Defined {
    // SAFETY: all slices can be read for their lengths, and their pointers are not null; `left` and `work` can be written for their
    // lengths and overlap none of the others.
    unsafe {
        raw::wf_parse_definitions(
            bundle.as_ptr(),
            bundle.len(),
            path.as_ptr(),
            path.len(),
            left.as_mut_ptr(),
            left.len(),
            work.as_mut_ptr(),
            work.len(),
        )
    }
}

/// Writes `text` with its includes resolved and then expanded to the start of `out`, and the sheet with the text's own bindings to the
/// start of `left`; 0 behind both. `folder` is the folder of the bundle where the text stands, or empty; `sheet` is the one that the text
/// begins with. `middle` takes the text between the two; it is 0 afterwards.
pub fn pass(
    bundle: &[u8],
    folder: &[u8],
    text: &[u8],
    sheet: &[u8],
    middle: &mut [u8],
    out: &mut [u8],
    left: &mut [u8],
) -> Passed {
    // SAFETY: all slices can be read for their lengths, and their pointers are not null; `middle`, `out` and `left` can be written for
    // their lengths and overlap none of the others.
    unsafe {
        raw::wf_pass(
            bundle.as_ptr(),
            bundle.len(),
            folder.as_ptr(),
            folder.len(),
            text.as_ptr(),
            text.len(),
            sheet.as_ptr(),
            sheet.len(),
            middle.as_mut_ptr(),
            middle.len(),
            out.as_mut_ptr(),
            out.len(),
            left.as_mut_ptr(),
            left.len(),
        )
    }
}

/// An output of so many bytes is never too short for a test load, whatever its seed and list.
pub const LOAD_ROOM: usize = 448;

/// Writes the test load of `seed` (document 02, E2) to the start of `out`, and 0 behind it: pieces drawn from the list of definition pieces
/// where `definitions` is true, else from that of document pieces.
pub fn test_load(seed: u32, definitions: bool, out: &mut [u8]) -> Text {
    // SAFETY: `out` can be written for its length, and its pointer is not null.
    unsafe { raw::wf_test_load(seed, definitions, out.as_mut_ptr(), out.len()) }
}

/// What a number says (document 01, section 8).
pub fn refusal(number: u8) -> &'static str {
    match number {
        0 => "accepted",
        1 => "work buffer too short",
        2 => "bundle breaks its layout",
        3 => "sheet breaks its layout",
        4 => "path or folder rule broken",
        5 => "file absent",
        6 => "byte from 128 in a text or opened file",
        7 => "seventh dictionary, include or import level",
        8 => "raw round that moves by nothing",
        9 => "sheet, value or growing dictionary too long",
        10 => "middle buffer too short",
        11 => "output buffer too short",
        _ => "no number of document 01",
    }
}

#[cfg(test)]
mod tests {
    use super::*;

    const SHEET: &[u8] = b"\x05\x01\0d\x01\0\x08\x03\x01\0x\x02\x0010";

    #[test]
    fn lookups() {
        let mut out = [0xAA; 3];
        let mut call = |sheet: &[u8], path: &str, n: usize| {
            out.fill(0xAA);
            let Resolved { number, kind, len } = resolve(sheet, path.as_bytes(), &mut out[..n]);
            let (text, behind) = out[..n].split_at(len);
            ((number, kind), text.to_vec(), behind.iter().all(|&c| c == 0) && out[n..].iter().all(|&c| c == 0xAA))
        };
        let empty = |number, kind| ((number, kind), vec![], true);
        assert_eq!(call(SHEET, "x", 3), ((0, TEXT), b"10".to_vec(), true));
        assert_eq!(call(SHEET, "x", 2), ((0, TEXT), b"10".to_vec(), true));
        assert_eq!(call(SHEET, "x", 1), empty(11, MISSING));
        for (path, kind) in [("d", DICTIONARY), ("d.", NONE), ("d.x", MISSING), ("y", MISSING), ("x.y", MISSING)] {
            assert_eq!(call(SHEET, path, 0), empty(0, kind), "{path}");
            assert_eq!(call(SHEET, path, 3), empty(0, kind), "{path}");
        }
        // The empty text, and no such name.
        assert_eq!(call(b"\x00", "", 0), empty(0, TEXT));
        assert_eq!(call(b"", "", 0), empty(0, MISSING));
        assert_eq!(call(b"\x10", "\u{80}", 3), empty(3, MISSING));
        assert_eq!(call(SHEET, "\u{80}", 3), empty(6, MISSING));
    }

    #[test]
    fn files() {
        let bundle = b"\x02\0\x07\x01a\x01b\x02\0hi\x02\x01z";
        let found = |kind, start, len| Found { number: 0, kind, start, len };
        assert_eq!(find_file(bundle, b"a/b"), found(FILE, 9, 2));
        assert_eq!(find_file(bundle, b"z"), found(FILE, 14, 0));
        assert_eq!(find_file(bundle, b"a"), found(FOLDER, 0, 0));
        assert_eq!(find_file(bundle, b"b"), found(ABSENT, 0, 0));
        assert_eq!(find_file(bundle, b"a/"), Found { number: 4, kind: 0, start: 0, len: 0 });
        assert_eq!(find_file(b"", b"a"), Found { number: 2, kind: 0, start: 0, len: 0 });
    }

    #[test]
    fn includes() {
        let bundle = b"\x03\0\x06\x01a\x01\0A\x07\x01d\x01b\x0c\0#include \"c\"\x07\x01d\x01c\x01\0C";
        let mut out = [0xAA; 12];
        let mut call = |text: &[u8], n: usize| {
            let text = resolve_includes(bundle, b"", text, &mut out[..n]);
            (text.number, out[..text.len].to_vec(), out[text.len..n].iter().all(|&c| c == 0))
        };
        assert_eq!(call(b"x#include \"d/b\"y", 12), (0, b"xC\n\ny".to_vec(), true));
        assert_eq!(call(b"x#include \"d/b\"y", 4), (11, vec![], true));
        assert_eq!(call(b"#source-include(\"a\")", 10), (0, b"```\nA\n```\n".to_vec(), true));
        assert_eq!(call(b"#include \"n\"", 12), (5, vec![], true));
        assert_eq!(call(b"#include \"..\"", 12), (4, vec![], true));
        assert_eq!(call(b"\x80", 12), (6, vec![], true));
        assert_eq!(resolve_includes(b"", b"", b"", &mut []), Text { number: 2, len: 0 });
    }

    #[test]
    fn expansions() {
        let bundle = b"\x01\0\x06\x01a\x01\0A";
        let (mut out, mut left) = ([0xAA; 12], [0xAA; 40]);
        let mut call = |text: &[u8], n: usize, l: usize| {
            let here = preprocess_typst(bundle, text, SHEET, &mut out[..n], &mut left[..l]);
            let (text, behind) = out[..n].split_at(here.len);
            let (sheet, last) = left[..l].split_at(here.sheet_len);
            let zero = behind.iter().chain(last).all(|&c| c == 0);
            (here.number, text.to_vec(), sheet.to_vec(), zero)
        };
        let left = [SHEET, b"\x03\x01\0y\x02\x0010"].concat();
        assert_eq!(call(b"#let y = x\n#y.", 12, 40), (0, vec![], left.clone(), true));
        assert_eq!(call(b"#let y = x\n#y", 2, left.len()), (0, b"10".to_vec(), left.clone(), true));
        assert_eq!(call(b"#raw(read(\"a\"))#x", 5, 40), (0, b"`A`10".to_vec(), SHEET.to_vec(), true));
        assert_eq!(call(b"#link(\"u\")[t]", 12, 40), (11, vec![], vec![], true));
        assert_eq!(call(b"#link(\"u\")[u]", 12, 40), (0, b"u".to_vec(), SHEET.to_vec(), true));
        assert_eq!(call(b"#let y = x\n", 12, left.len() - 1), (9, vec![], vec![], true));
        assert_eq!(call(b"", 12, SHEET.len() - 1), (9, vec![], vec![], true));
        assert_eq!(call(b"#raw(\"a\" \"b\")", 12, 40), (8, vec![], vec![], true));
        assert_eq!(call(b"#raw(read(\"n\"))", 12, 40), (5, vec![], vec![], true));
        assert_eq!(call(b"#raw(read(\"..\"))", 12, 40), (4, vec![], vec![], true));
        assert_eq!(call(b"\x80", 12, 40), (6, vec![], vec![], true));
        let refused = |number| Expanded { number, len: 0, sheet_len: 0 };
        assert_eq!(preprocess_typst(b"", b"", b"\x10", &mut [], &mut []), refused(2));
        assert_eq!(preprocess_typst(bundle, b"", b"\x10", &mut [], &mut []), refused(3));
    }

    #[test]
    fn definitions() {
        let bundle = b"\x02\0\x06\x01d\x1f\0#import \"e\": e\n#let x = e + \"0\"\x06\x01e\x0c\0#let e = \"1\"";
        let sheet = b"\x03\x01\0e\x01\x001\x03\x01\0x\x02\x0010";
        let (mut left, mut work) = ([0xAA; 20], [0xAA; 320]);
        let mut call = |bundle: &[u8], path: &[u8], l: usize, w: usize| {
            let here = parse_definitions(bundle, path, &mut left[..l], &mut work[..w]);
            let (sheet, behind) = left[..l].split_at(here.sheet_len);
            (here.number, sheet.to_vec(), behind.iter().chain(&work[..w]).all(|&c| c == 0))
        };
        assert_eq!(call(bundle, b"d", 20, work_needed(20)), (0, sheet.to_vec(), true));
        assert_eq!(call(bundle, b"d", 15, work_needed(15)), (0, sheet.to_vec(), true));
        assert_eq!(call(bundle, b"d", 14, work_needed(14)), (9, vec![], true));
        assert_eq!(call(bundle, b"d", 15, work_needed(15) - 1), (1, vec![], true));
        assert_eq!(call(b"", b"d", 15, work_needed(15)), (2, vec![], true));
        assert_eq!(call(bundle, b"", 15, work_needed(15)), (4, vec![], true));
        assert_eq!(call(bundle, b"n", 15, work_needed(15)), (5, vec![], true));
        assert_eq!(work_needed(65_536), 16 * 65_535);
    }

    #[test]
    fn passes() {
        let bundle = b"\x01\0\x06\x01a\x02\0#x";
        let (mut middle, mut out, mut left) = ([0xAA; 12], [0xAA; 12], [0xAA; 40]);
        let mut call = |folder: &[u8], text: &[u8], m: usize, n: usize, l: usize| {
            let here = pass(bundle, folder, text, SHEET, &mut middle[..m], &mut out[..n], &mut left[..l]);
            let (text, behind) = out[..n].split_at(here.len);
            let (sheet, last) = left[..l].split_at(here.sheet_len);
            let zero = behind.iter().chain(last).chain(&middle[..m]).all(|&c| c == 0);
            (here.number, text.to_vec(), sheet.to_vec(), here.closed, zero)
        };
        let refused = |number| (number, vec![], vec![], false, true);
        let left = [SHEET, b"\x03\x01\0y\x02\x0010"].concat();
        assert_eq!(call(b"", b"#include \"a\"\n", 4, 4, 40), (0, b"10\n\n".to_vec(), SHEET.to_vec(), true, true));
        assert_eq!(call(b"", b"#include \"a\"\n", 3, 4, 40), refused(10));
        assert_eq!(call(b"", b"#include \"a\"\n", 4, 3, 40), refused(11));
        assert_eq!(call(b"", b"#let y = x\n", 12, 0, left.len()), (0, vec![], left.clone(), true, true));
        assert_eq!(call(b"", b"#let y = x\n", 12, 0, left.len() - 1), refused(9));
        assert_eq!(call(b"", b"#raw(x\n", 12, 12, 40), (0, b"`10`".to_vec(), SHEET.to_vec(), false, true));
        assert_eq!(call(b"", b"", 0, 0, SHEET.len()), (0, vec![], SHEET.to_vec(), true, true));
        assert_eq!(call(b"/", b"", 0, 0, 40), refused(4));
        assert_eq!(call(b"", b"\x80", 12, 12, 40), refused(6));
        assert_eq!(call(b"d", b"#include \"a\"", 12, 12, 40), refused(5));
        let wide = |number| Passed { number, len: 0, sheet_len: 0, closed: false };
        assert_eq!(pass(b"", b"/", b"", b"\x10", &mut [], &mut [], &mut []), wide(2));
        assert_eq!(pass(bundle, b"/", b"", b"\x10", &mut [], &mut [], &mut []), wide(3));
    }

    #[test]
    fn loads() {
        let mut out = [0xAA; LOAD_ROOM];
        let mut call = |seed, definitions, n: usize| {
            out.fill(0xAA);
            let Text { number, len } = test_load(seed, definitions, &mut out[..n]);
            let (text, behind) = out[..n].split_at(len);
            let zero = behind.iter().all(|&c| c == 0) && out[n..].iter().all(|&c| c == 0xAA);
            (number, String::from_utf8(text.to_vec()).unwrap(), zero)
        };
        let refused = (11, String::new(), true);
        let document = "#x\n#x.#raw(x)  #x.#let y = x\n#x #x.#link(\"u\")[t] #raw(x) ";
        assert_eq!(call(0, false, document.len()), (0, document.into(), true));
        assert_eq!(call(0, false, LOAD_ROOM), (0, document.into(), true));
        assert_eq!(call(0, false, document.len() - 1), refused);
        assert_eq!(call(0, true, 0), refused);
        let (number, definitions, zero) = call(0, true, 75);
        assert_eq!((number, definitions.len(), zero), (0, 74, true));
        assert_eq!(call(0, true, 73), refused);
        assert_eq!(call(u32::MAX, false, 111).1.len(), 111);
    }

    #[test]
    fn numbers() {
        assert_eq!(refusal(resolve(b"\x10", b"", &mut []).number), "sheet breaks its layout");
        assert_eq!(refusal(0), "accepted");
    }
}
