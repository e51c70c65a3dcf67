//! Texts of the mode `expansion` that 01 refuses with 8: there the reference must not end. It is asked in a child process, with a limit
//! of time and of memory. What stands before the call that stalls is asked first: that must be answered, as 01 says.
use super::expansion::{Arguments, Expansion};
use super::{Mode, same};
use crate::buffer::Buffer;
use crate::case::{Case, Form};
use crate::rng::Rng;
use oracle::child::{Answer, Call, Runner};
use oracle::sheet;
use std::collections::HashSet;
use std::time::Duration;
use wagtailfen::preprocess_typst;

/// A call that ends takes less than a thousandth of that.
const STALL: Duration = Duration::from_millis(100);
/// For a call that must end, and for the start of the child.
const END: Duration = Duration::from_secs(20);

pub struct Stalls {
    expansion: Expansion,
    runner: Runner,
    texts: HashSet<Vec<u8>>,
}

impl Stalls {
    pub fn new() -> Stalls {
        Stalls { expansion: Expansion::default(), runner: Runner::new(END), texts: HashSet::new() }
    }
}

impl Mode for Stalls {
    fn name(&self) -> &'static str {
        "stalls"
    }

    fn share(&self) -> u64 {
        2000
    }

    /// The next text that stalls and was not there before.
    fn case(&mut self, rng: &mut Rng) -> Case {
        loop {
            let Arguments { bundle, text, sheet } = self.expansion.arguments(rng);
            let whole = self.expansion.answer(&bundle, &text, &sheet, usize::MAX, usize::MAX);
            if whole.result == Err(8) && self.texts.insert(text.clone()) {
                return Case::default()
                    .input("bundle", Form::Bundle, bundle)
                    .input("text", Form::Plain, text)
                    .input("sheet", Form::Sheet, sheet)
                    .room("out", whole.written)
                    .room("left", whole.longest);
            }
        }
    }

    fn run(&mut self, case: &Case) -> Result<&'static str, String> {
        let (bundle, text, sheet) = (case.bytes(0), case.bytes(1), case.bytes(2));
        let (out_len, left_len) = (case.len(0), case.len(1));
        let wanted = self.expansion.answer(bundle, text, sheet, out_len, left_len);
        if wanted.result != Err(8) {
            return Ok("not 8");
        }
        let (before, end) = (self.before(case, wanted.reached)?, self.ask(text, sheet, STALL)?);
        same("the reference before the call", before.0, before.1)?;
        same("the reference", end, Answer::Stalled)?;

        let (mut out, mut left) = (Buffer::new(out_len), Buffer::new(left_len));
        let here = preprocess_typst(bundle, text, sheet, out.inside(), left.inside());
        same("preprocess_typst", (here.number, here.len, here.sheet_len), (8, 0, 0))?;
        out.check("preprocess_typst: out", b"")?;
        left.check("preprocess_typst: left", b"")?;
        Ok("does not end")
    }

    fn summary(&self) -> Option<String> {
        Some(format!(
            "  {} different texts; {} ms for each, then the child is ended",
            self.texts.len(),
            STALL.as_millis()
        ))
    }
}

impl Stalls {
    /// The reference's answer for the text before the call that stalls, and 01's.
    fn before(&mut self, case: &Case, reached: usize) -> Result<(Answer, Answer), String> {
        let (bundle, text, sheet) = (case.bytes(0), &case.bytes(1)[..reached], case.bytes(2));
        let by_01 = self.expansion.answer(bundle, text, sheet, usize::MAX, usize::MAX).result;
        let by_01 = by_01.map_err(|number| format!("this driver: {number} before the call that stalls"))?;
        let wanted = Answer::Done { out: by_01.out, left: sheet::encode(&by_01.left) };
        Ok((self.ask(text, sheet, END)?, wanted))
    }

    fn ask(&mut self, text: &[u8], sheet: &[u8], limit: Duration) -> Result<Answer, String> {
        let text = str::from_utf8(text).map_err(|e| e.to_string())?;
        let files = self.expansion.files().ok_or("this driver: no bundle")?;
        self.runner.run_within(limit, files, Call::Expansion { text, sheet }).map_err(|e| e.to_string())
    }
}
