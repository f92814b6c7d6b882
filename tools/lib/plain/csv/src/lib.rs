//! The reader of records of `csv`: fields in quotes, records of any lengths, no headers.
use plain_std::alloc::Global;

pub struct ByteRecord {
    bytes: Vec<u8>,
    ends: Vec<usize>,
}

impl ByteRecord {
    pub fn new(_: Global) -> ByteRecord {
        ByteRecord {
            bytes: Vec::new(),
            ends: Vec::new(),
        }
    }
    pub fn len(&self) -> usize {
        self.ends.len()
    }
    pub fn get(&self, place: usize) -> Option<&[u8]> {
        let end = *self.ends.get(place)?;
        let start = if place == 0 { 0 } else { self.ends[place - 1] };
        Some(&self.bytes[start..end])
    }
    fn clear(&mut self) {
        self.bytes.clear();
        self.ends.clear();
    }
    fn end_field(&mut self) {
        self.ends.push(self.bytes.len());
    }
}

pub enum ErrorKind {
    Io(plain_std::io::Error),
    OutOfMemory,
    Other,
}

pub struct Error(ErrorKind);

impl Error {
    pub fn into_kind(self) -> ErrorKind {
        self.0
    }
}

pub struct ReaderBuilder;

impl ReaderBuilder {
    pub fn new() -> ReaderBuilder {
        ReaderBuilder
    }
    pub fn has_headers(&mut self, _: bool) -> &mut ReaderBuilder {
        self
    }
    pub fn flexible(&mut self, _: bool) -> &mut ReaderBuilder {
        self
    }
    pub fn from_reader<'a>(&self, _: Global, text: &'a [u8]) -> Reader<&'a [u8]> {
        Reader {
            text: text.strip_prefix(b"\xEF\xBB\xBF").unwrap_or(text),
            at: 0,
        }
    }
}

pub struct Reader<T> {
    text: T,
    at: usize,
}

fn ends_record(byte: u8) -> bool {
    byte == b'\n' || byte == b'\r'
}

impl<'a> Reader<&'a [u8]> {
    pub fn read_byte_record(&mut self, row: &mut ByteRecord) -> Result<bool, Error> {
        row.clear();
        while self.at < self.text.len() && ends_record(self.text[self.at]) {
            self.at += 1;
        }
        if self.at == self.text.len() {
            return Ok(false);
        }
        while self.field(row) {}
        Ok(true)
    }

    // Reads a field with what ends it, and tells whether another one follows.
    fn field(&mut self, row: &mut ByteRecord) -> bool {
        if self.text.get(self.at) == Some(&b'"') {
            self.at += 1;
            self.quoted(row);
        }
        while self.at < self.text.len() {
            let byte = self.text[self.at];
            self.at += 1;
            if byte == b',' || ends_record(byte) {
                row.end_field();
                return byte == b',';
            }
            row.bytes.push(byte);
        }
        row.end_field();
        false
    }

    // Reads what stands between quotes; two quotes stand for one.
    fn quoted(&mut self, row: &mut ByteRecord) {
        while self.at < self.text.len() {
            let byte = self.text[self.at];
            self.at += 1;
            if byte == b'"' && self.text.get(self.at) != Some(&b'"') {
                return;
            }
            self.at += usize::from(byte == b'"');
            row.bytes.push(byte);
        }
    }
}
