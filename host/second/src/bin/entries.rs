//! A driver for the entries of document 01 on free inputs, for comparison with
//! another program.

use second::{admission, comparison, listing, run, slot, Refusal, Winner};
use std::fmt::Display;
use std::io::{self, BufRead, BufWriter, Write};
use std::process::ExitCode;
use std::str::SplitWhitespace;

const HELP: &str = "\
entries: the entries (docs/RULES.md) on free inputs, by the second program's functions.

Usage: entries
Each line of standard input is one request, in decimal with blanks between. There is no option but --help.
  A m n e1..en q p1..pq
  C e p e2 p2 t
  S m t n e.. q p.. r k.. s         (s bytes are lent, all 9 at first)
  L m t n e.. q p.. r k.. s
  R m t slots n e.. q p.. r k.. s   (the log has s bytes, all 9 at first)
The answer is one line, its words with one blank between.
  A ok M L spare_e spare_p (0 0 if there is none), A no NUMBER CARRIED
  C 0, C 1 or C 2 (first, second, tie), C no NUMBER CARRIED
  S ok k.. | b.., S no NUMBER CARRIED | k.. | b..
  L ok | b.., L no NUMBER CARRIED | b..
  R DONE ok | k.. | b.., R DONE no NUMBER CARRIED | k.. | b..
A line that is no such request is answered with bad.

Codes: 0 all was answered; 1 a read or a write failed; 2 a word that is not known.

Example: echo C 1 2 1 3 1 | host/second/target/release/entries
";

/// The value that lent bytes have before the call.
const LENT: u8 = 9;

fn main() -> ExitCode {
    second::words::run("entries", HELP, serve)
}

fn serve() -> io::Result<()> {
    let mut input = io::stdin().lock();
    let mut output = BufWriter::new(io::stdout().lock());
    let mut line = Vec::new();
    loop {
        line.clear();
        if input.read_until(b'\n', &mut line)? == 0 {
            return Ok(());
        }
        let answer = std::str::from_utf8(&line).ok().and_then(answer);
        writeln!(output, "{}", answer.unwrap_or("bad".to_string()))?;
        output.flush()?;
    }
}

fn answer(line: &str) -> Option<String> {
    let mut request = Request {
        words: line.split_whitespace(),
    };
    let words = match request.words.next()? {
        "A" => answer_admission(&mut request)?,
        "C" => answer_comparison(&mut request)?,
        "S" => answer_slot(&mut request)?,
        "L" => answer_listing(&mut request)?,
        "R" => answer_run(&mut request)?,
        _ => return None,
    };
    Some(words.join(" "))
}

fn answer_admission(request: &mut Request) -> Option<Vec<String>> {
    let m = request.number()?;
    let es = request.list()?;
    let ps = request.list()?;
    request.end()?;
    Some(match admission(&es, &ps, m) {
        Ok(admitted) => {
            let (e, p) = admitted.spare.unwrap_or((0, 0));
            [
                words(&["A", "ok"]),
                words(&[admitted.units, admitted.l, e, p]),
            ]
            .concat()
        }
        Err(refusal) => [words(&["A"]), no(refusal)].concat(),
    })
}

fn answer_comparison(request: &mut Request) -> Option<Vec<String>> {
    let (e, p) = (request.number()?, request.number()?);
    let (e2, p2) = (request.number()?, request.number()?);
    let t = request.number()?;
    request.end()?;
    Some(match comparison(e, p, e2, p2, t) {
        Ok(Winner::First) => words(&["C", "0"]),
        Ok(Winner::Second) => words(&["C", "1"]),
        Ok(Winner::Tie) => words(&["C", "2"]),
        Err(refusal) => [words(&["C"]), no(refusal)].concat(),
    })
}

fn answer_slot(request: &mut Request) -> Option<Vec<String>> {
    let (m, t) = (request.number()?, request.number()?);
    let (es, ps, mut ks) = (request.list()?, request.list()?, request.list()?);
    let mut bytes = request.bytes()?;
    request.end()?;
    let head = match slot(&es, &ps, &mut ks, &mut bytes, m, t) {
        Ok(()) => words(&["S", "ok"]),
        Err(refusal) => [words(&["S"]), no(refusal), bar()].concat(),
    };
    Some([head, words(&ks), bar(), words(&bytes)].concat())
}

fn answer_listing(request: &mut Request) -> Option<Vec<String>> {
    let (m, t) = (request.number()?, request.number()?);
    let (es, ps, ks) = (request.list()?, request.list()?, request.list()?);
    let mut bytes = request.bytes()?;
    request.end()?;
    let head = match listing(&es, &ps, &ks, &mut bytes, m, t) {
        Ok(()) => words(&["L", "ok"]),
        Err(refusal) => [words(&["L"]), no(refusal)].concat(),
    };
    Some([head, bar(), words(&bytes)].concat())
}

fn answer_run(request: &mut Request) -> Option<Vec<String>> {
    let (m, t, slots) = (request.number()?, request.number()?, request.number()?);
    let (es, ps, mut ks) = (request.list()?, request.list()?, request.list()?);
    let mut log = request.bytes()?;
    request.end()?;
    let answer = run(slots, &es, &ps, &mut ks, &mut log, m, t);
    let how = answer.refusal.map_or(words(&["ok"]), no);
    let head = [words(&["R"]), words(&[answer.done]), how].concat();
    Some([head, bar(), words(&ks), bar(), words(&log)].concat())
}

fn words<T: Display>(values: &[T]) -> Vec<String> {
    values.iter().map(T::to_string).collect()
}

fn bar() -> Vec<String> {
    words(&["|"])
}

fn no(refusal: Refusal) -> Vec<String> {
    let (number, carried) = (refusal.number(), refusal.carried());
    [words(&["no"]), words(&[number]), words(&[carried])].concat()
}

/// The words of a request that are still to be read.
struct Request<'a> {
    words: SplitWhitespace<'a>,
}

impl Request<'_> {
    fn number(&mut self) -> Option<u32> {
        self.words.next()?.parse().ok()
    }

    /// A length and that many numbers.
    fn list(&mut self) -> Option<Vec<u32>> {
        let length = self.number()?;
        (0..length).map(|_| self.number()).collect()
    }

    /// A length: that many bytes are lent.
    fn bytes(&mut self) -> Option<Vec<u8>> {
        Some(vec![LENT; self.number()? as usize])
    }

    fn end(&mut self) -> Option<()> {
        self.words.next().is_none().then_some(())
    }
}
