//! A list of records on standard output, which a program in C reads and replays.

use std::io::{BufWriter, StdoutLock, Write as _};

pub struct List(BufWriter<StdoutLock<'static>>);

impl List {
    pub fn open() -> List {
        List(BufWriter::with_capacity(1 << 16, std::io::stdout().lock()))
    }

    pub fn write(&mut self, bytes: &[u8]) {
        self.0.write_all(bytes).expect("the reader takes it all");
    }

    pub fn close(mut self) {
        self.0.flush().expect("the reader takes it all");
    }
}
