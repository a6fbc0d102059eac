//! A case on each line of standard input, the Rust's answer on each line of standard output. A call that panics, or a
//! line that is no case, is answered as such, which is no answer that a case has.
use std::io::{self, BufRead, BufWriter, Write};
use std::panic;

fn main() -> io::Result<()> {
    panic::set_hook(Box::new(|_| {}));
    let mut out = BufWriter::new(io::stdout().lock());
    for line in io::stdin().lock().lines() {
        let line = line?;
        match panic::catch_unwind(|| vcf_oracle::cases::answer(&line)) {
            Ok(Ok(answer)) => writeln!(out, "{answer}")?,
            Ok(Err(what)) => writeln!(out, "no case: {what}")?,
            Err(_) => writeln!(out, "panic")?,
        }
    }
    out.flush()
}
