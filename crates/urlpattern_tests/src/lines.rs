//! The lines of texts, selected by a rule that is easily read.
ghost use Rattle.std.specs.Prelude.{⊤};

use std::alloc::AllocError;
use std::test::Fail;
use urlpat_matching::{LineStyle, Rule, Verdict, answer_lines};

/// A rule that selects the lines of fewer than four characters, and writes them as they are.
#[derive(Drop)]
struct Short;

impl Rule for Short {
    ghost Answers = { λ rule text line verdict written. ⊤ };

    fn answer(
        &self,
        text: Option<&str>,
        line: &[u8],
        written: &mut Vec<u8>,
    ) -> Result<Verdict, AllocError> {
        match text {
            None => return Ok(Verdict::Rejected),
            Some(text) if text.len() > 3 => return Ok(Verdict::Passed),
            Some(_) => (),
        }
        written.extend_from_slice(line)?;
        Ok(Verdict::Selected)
    }
}

#[test]
fn a_line_that_is_too_long_is_rejected(rt: HostRuntime) -> Result<(), Fail> {
    let alloc = rt.alloc();
    let mut text = vec![in alloc; b'a'; 16_777_216 + 1]?;
    text.extend_from_slice(b"\nb\n")?;
    let mut input = text.as_slice();
    let mut out = Vec::new(alloc);
    let mut err = Vec::new(alloc);
    let style = LineStyle {
        file: None,
        named: false,
        numbered: true,
        flushed: false,
    };
    match answer_lines(alloc, &Short, style, 1, &mut input, &mut out, &mut err) {
        Ok(tally) => {
            assert!(rt; tally.selected == 1 && tally.rejected == 1);
            assert!(rt; out.as_slice() == b"2:b\n".as_slice());
        }
        Err(_) => return Err(Fail::from(AllocError)),
    }
    Ok(())
}
