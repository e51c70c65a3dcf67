//! Calls in a child process: answers, errors, a hang, a stack overflow, and the calls after them.
use oracle::Files;
use oracle::child::{Answer, Call, Runner, serve_if_asked};
use std::time::Duration;

const X: &[u8] = b"\x03\x01\0x\x02\x0010";

fn main() {
    serve_if_asked();
    let files: Files = [("a", "A"), ("self", "#include \"self\""), ("d.typ", "#let y = none")]
        .iter()
        .map(|(p, c)| (p.as_bytes().to_vec(), c.as_bytes().to_vec()))
        .collect();
    let mut runner = Runner::new(Duration::from_millis(2000));
    let mut ask = |call| runner.run(&files, call).unwrap();
    let done = |out: &[u8], left: &[u8]| Answer::Done { out: out.into(), left: Some(left.into()) };

    let includes = |text| Call::Includes { folder: "", text };
    let expansion = |text| Call::Expansion { text, sheet: X };
    assert_eq!(ask(includes("#include \"a\"")), done(b"A\n", b""));
    assert_eq!(ask(includes("#include \"n\"")), Answer::Failed);
    assert_eq!(ask(expansion("#x")), done(b"10", X));
    assert_eq!(ask(expansion("#raw(\"a\", theme: \"b\")")), Answer::Stalled);
    assert_eq!(ask(includes("#include \"self\"")), Answer::Died);
    assert_eq!(ask(Call::Definitions { path: "d.typ" }), done(b"", b"\x09\x01\0y"));
    assert_eq!(ask(Call::Pass { folder: "", text: "#include \"a\"#x", sheet: X }), done(b"A\n10", X));
    println!("child: 7 calls as expected");
}
