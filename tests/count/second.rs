//! The second edition of the job file: read, written, and moved from one edition to the other.

use crate::job::{self, refused, Cursor, Head, Job, Refusal};

/// The most bytes of a file.
pub const LIMIT: usize = 16_384;

/// The field before the four: its tag, its length, its body.
pub const EDITION: [u8; 4] = [0x10, 0, 1, 2];

/// The lowest tag of an optional field, which is that of the names.
pub const NAMES: u8 = 0x80;

/// A file that nothing refuses: its job, where its optional fields start, and where its names do.
pub struct Second {
    pub job: Job,
    pub optional: usize,
    pub names: Option<usize>,
}

/// The job in these bytes with what stands after it, or the first refusal in file order.
pub fn read(bytes: &[u8]) -> Result<Second, Refusal> {
    if bytes.len() > LIMIT {
        return refused(4, 0);
    }
    let mut cursor = Cursor::at(bytes, 0);
    let body = cursor.field(EDITION[0], 1)?;
    if body != [EDITION[3]] {
        return refused(12, 3);
    }
    let (mut optional, mut names) = (0, None);
    let job = job::read_fields(cursor, |head, place| {
        optional = place;
        names = optionals(bytes, head, place)?;
        Ok(())
    })?;
    Ok(Second { job, optional, names })
}

/// Where the names stand, of the optional fields from a place to the end.
fn optionals(bytes: &[u8], head: &Head, start: usize) -> Result<Option<usize>, Refusal> {
    let (mut place, mut seen, mut names) = (start, Vec::new(), None);
    while place < bytes.len() {
        let [tag, high, low, after @ ..] = &bytes[place..] else {
            return refused(1, place);
        };
        if *tag < NAMES || seen.iter().any(|before| before >= tag) {
            return refused(2, place);
        }
        let length = usize::from(u16::from_be_bytes([*high, *low]));
        if *tag == NAMES && length != 8 * head.objects() {
            return refused(3, place);
        }
        if after.len() < length {
            return refused(1, place);
        }
        if *tag == NAMES {
            names = Some(place + 3);
        }
        seen.push(*tag);
        place += 3 + length;
    }
    Ok(names)
}

/// A field: its tag, its length, its body.
pub fn field(tag: u8, body: &[u8]) -> Vec<u8> {
    [&[tag][..], &(body.len() as u16).to_be_bytes(), body].concat()
}

/// A file of the first edition in the second, with these names.
pub fn with_names(first: &[u8], names: &[u8]) -> Vec<u8> {
    let names = if names.is_empty() { vec![] } else { field(NAMES, names) };
    [&EDITION[..], first, &names].concat()
}

/// A file of the second edition in the first.
pub fn to_first(bytes: &[u8]) -> Result<Vec<u8>, Refusal> {
    let file = read(bytes)?;
    if file.optional < bytes.len() {
        return refused(13, file.optional);
    }
    Ok(bytes[EDITION.len()..].to_vec())
}
