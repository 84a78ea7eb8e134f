//! Standard input to standard output (the scope, "Program").

use std::io;

fn main() {
    reference::stream::run(&mut io::stdin().lock(), &mut io::stdout().lock());
}
