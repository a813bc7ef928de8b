//! Writes the call list on standard input anew, line by line, in constant memory: an accepted line from its
//! call, a refused one as its number in two columns. A line alone decides; there is no queue and no controller,
//! so that 10, 11 and 12 do not come.

use std::io;

#[allow(dead_code)]
mod answer_line;
mod call_line;
#[allow(dead_code)]
mod line;
mod stream;

fn main() -> io::Result<()> {
    stream::run(io::stdin().lock(), io::stdout().lock(), line::read)
}
