//! Cards: the text of a job's card, and the file that a card makes, read by descent from word to word, with what was expected where it cannot be read.

use crate::certificate::shown;
use crate::job::{self, members, Draft, Refusal, INFINITY};
use crate::parts;
use crate::second::{self, EDITION, LIMIT, NAMES};

/// The most bytes of a card.
pub const CARD_LIMIT: usize = 65_536;

/// What each word of a card is to be, by the number that the definition has for it: words that the message holds.
pub const WANTED: [&str; 22] = [
    "residues or field",
    "the number of elements",
    "fixed",
    "yes or no",
    "initial",
    "an object of the left side",
    "another object of the left side, or |",
    "an object of the left side: it has as many",
    "|: the left side has as many",
    "an object of the right side",
    "initial or restraint",
    "a standard",
    "another standard, none twice, or =",
    "the accepted sum",
    "readings",
    "a reading",
    "another reading, a whole number of counts; or names, other, or the end of the card",
    "a name of at most eight bytes",
    "other, or the end of the card",
    "a tag",
    "the bytes of the field",
    "nothing more",
];

/// The card of a file of either edition.
pub fn of(file: &[u8]) -> Result<String, Refusal> {
    if file.first() != Some(&EDITION[0]) {
        job::read(file)?;
        return Ok(four(&parts::parts_of(file).expect("the parts of a job")));
    }
    let read = second::read(file)?;
    let mut text = four(&parts::parts_of(&file[EDITION.len()..read.optional]).expect("the parts of a job"));
    let mut place = read.optional;
    while place < file.len() {
        let end = place + 3 + usize::from(file[place + 1]) * 256 + usize::from(file[place + 2]);
        let body = &file[place + 3..end];
        if file[place] == NAMES {
            let names: Vec<String> = body.chunks(8).map(shown).collect();
            text += &format!("names {}\n", names.join(" "));
        } else {
            let digits: String = body.iter().map(|byte| format!("{byte:02X}")).collect();
            text += &format!("other {:02X} {}\n", file[place], if body.is_empty() { "-" } else { &digits });
        }
        place = end;
    }
    Ok(text)
}

/// The lines of the four fields; the readings of an initial block stand on one of their own.
fn four(draft: &Draft) -> String {
    let object = |object: &u8| if *object == INFINITY { "inf".to_string() } else { object.to_string() };
    let side = |objects: &[u8]| objects.iter().map(object).collect::<Vec<_>>().join(" ");
    let mut text = format!("{} {}\n", if draft.flag < 2 { "residues" } else { "field" }, draft.n);
    text += &format!("fixed {}\n", if draft.flag % 2 == 1 { "yes" } else { "no" });
    for block in draft.objects.chunks(2 * usize::from(draft.p)) {
        let (left, right) = block.split_at(draft.p.into());
        text += &format!("initial {} | {}\n", side(left), side(right));
    }
    let standards: Vec<String> = members(draft.restraint).iter().map(|member| member.to_string()).collect();
    text += &format!("restraint {} = {}\nreadings", standards.join(" "), draft.sum);
    for (index, reading) in draft.readings.iter().enumerate() {
        text += &format!("{} {reading}", if index % usize::from(draft.n) == 0 { "\n" } else { "" });
    }
    text + "\n"
}

/// The words of a card for the parts of a job, right or wrong.
pub fn words_of(draft: &Draft) -> Vec<String> {
    let object = |object: &u8| if *object == INFINITY { "inf".to_string() } else { object.to_string() };
    let mut words = vec![if draft.flag < 2 { "residues" } else { "field" }.to_string(), draft.n.to_string()];
    words.extend(["fixed", if draft.flag % 2 == 1 { "yes" } else { "no" }].map(str::to_string));
    for block in draft.objects.chunks(2 * usize::from(draft.p.max(1))) {
        let (left, right) = block.split_at(block.len() / 2);
        words.push("initial".to_string());
        words.extend(left.iter().map(object));
        words.push("|".to_string());
        words.extend(right.iter().map(object));
    }
    words.push("restraint".to_string());
    words.extend(members(draft.restraint).iter().map(usize::to_string));
    words.extend(["=".to_string(), draft.sum.to_string(), "readings".to_string()]);
    words.extend(draft.readings.iter().map(i32::to_string));
    words
}

/// Why a card makes no file: at a place it cannot be read, since the word numbered so was wanted; or the file is refused for what stands at a place of the card.
#[derive(Debug)]
pub enum Unmade {
    Unread(usize, usize),
    Refused(u8, usize),
}

/// The words of a card with their places. What goes on in the names' field or any other is taken as it comes.
struct Words<'a> {
    card: &'a [u8],
    words: Vec<(usize, &'a [u8])>,
    next: usize,
}

impl<'a> Words<'a> {
    fn of(card: &'a [u8]) -> Words<'a> {
        let mut words = vec![];
        let mut start = 0;
        for line in card.split_inclusive(|byte| *byte == b'\n') {
            let said = line.split(|byte| *byte == b'#').next().expect("a line has a first part");
            let mut at = start;
            for word in said.split(|byte| *byte <= b' ') {
                if !word.is_empty() {
                    words.push((at, word));
                }
                at += word.len() + 1;
            }
            start += line.len();
        }
        Words { card, words, next: 0 }
    }

    fn peek(&self) -> Option<&'a [u8]> {
        self.words.get(self.next).map(|(_, word)| *word)
    }

    /// The place of the next word, or the card's end.
    fn place(&self) -> usize {
        self.words.get(self.next).map_or(self.card.len(), |(at, _)| *at)
    }

    /// The next word as what it is to be.
    fn take<T>(&mut self, wants: usize, is: impl FnOnce(&[u8]) -> Option<T>) -> Result<T, Unmade> {
        let taken = self.peek().and_then(is).ok_or(Unmade::Unread(self.place(), wants))?;
        self.next += 1;
        Ok(taken)
    }

    fn word(&mut self, wants: usize, word: &str) -> Result<(), Unmade> {
        self.take(wants, |found| (found == word.as_bytes()).then_some(()))
    }

    fn one_of(&mut self, wants: usize, words: [&str; 2]) -> Result<bool, Unmade> {
        self.take(wants, |found| words.iter().position(|word| word.as_bytes() == found).map(|index| index == 1))
    }
}

/// A whole number of digits alone, at most so large.
fn number(word: &[u8], most: u128) -> Option<u128> {
    let digits = word.iter().all(u8::is_ascii_digit) && !word.is_empty();
    let value = digits.then(|| word.iter().fold(0u128, |value, digit| (value * 10 + u128::from(digit - b'0')).min(1 << 100)))?;
    (value <= most).then_some(value)
}

/// The same with a minus, in so many bits.
fn signed(word: &[u8], bits: u32) -> Option<i128> {
    match word {
        [b'-', digits @ ..] => number(digits, 1 << (bits - 1)).map(|value| -(value as i128)),
        _ => number(word, (1 << (bits - 1)) - 1).map(|value| value as i128),
    }
}

fn object(word: &[u8]) -> Option<u8> {
    if word == b"inf" { Some(INFINITY) } else { number(word, 254).map(|value| value as u8) }
}

fn digits(word: &[u8]) -> Option<Vec<u8>> {
    let values: Option<Vec<u8>> = word.iter().map(|digit| char::from(*digit).to_digit(16).map(|value| value as u8)).collect();
    let values = values?;
    (values.len() % 2 == 0).then(|| values.chunks(2).map(|pair| 16 * pair[0] + pair[1]).collect())
}

/// A name as its eight bytes.
fn name(word: &[u8]) -> Option<Vec<u8>> {
    let (mut bytes, mut rest) = (vec![], word);
    while let [first, after @ ..] = rest {
        if *first == b'\\' {
            if after.len() < 3 || after[0] != b'x' {
                return None;
            }
            bytes.extend(digits(&after[1..3])?);
            rest = &after[3..];
        } else if *first <= b'~' {
            bytes.push(*first);
            rest = after;
        } else {
            return None;
        }
    }
    (bytes.len() <= 8).then(|| {
        bytes.resize(8, b' ');
        bytes
    })
}

/// The file of a card.
pub fn file(card: &[u8]) -> Result<Vec<u8>, Unmade> {
    let mut words = Words::of(card);
    // where the words stand of which a refusal may speak, and where each word stands that adds bytes, with how many it adds
    let kind_at = words.place();
    let field = words.one_of(1, ["residues", "field"])?;
    let n = words.take(2, |word| number(word, 255))? as u8;
    words.word(3, "fixed")?;
    let fixed = words.one_of(4, ["no", "yes"])?;
    let flag = 2 * u8::from(field) + u8::from(fixed);
    let v = usize::from(n) + usize::from(fixed);
    let block_at = words.place();
    words.word(5, "initial")?;
    let (mut objects, mut added, mut p) = (vec![], vec![], 0);
    loop {
        let at = words.place();
        if p > 0 && words.peek() == Some(b"|") {
            words.next += 1;
            break;
        }
        let taken = words.take(if p == 0 { 6 } else { 7 }, object)?;
        if p == 255 {
            return Err(Unmade::Unread(at, 22));
        }
        objects.push(taken);
        added.push((at, 1));
        p += 1;
    }
    let mut side = |words: &mut Words, wants| -> Result<(), Unmade> {
        for _ in 0..p {
            added.push((words.place(), 1));
            objects.push(words.take(wants, object)?);
        }
        Ok(())
    };
    side(&mut words, 10)?;
    let mut m = 1;
    let restraint_at = loop {
        let at = words.place();
        if words.one_of(11, ["initial", "restraint"])? {
            break at;
        }
        if m == 255 {
            return Err(Unmade::Unread(at, 22));
        }
        side(&mut words, 8)?;
        words.word(9, "|")?;
        side(&mut words, 10)?;
        m += 1;
    };
    let mut restraint = 0u64;
    loop {
        if restraint != 0 && words.peek() == Some(b"=") {
            words.next += 1;
            break;
        }
        let member = words.take(if restraint == 0 { 12 } else { 13 }, |word| {
            let member = if word == b"inf" && fixed && n < 64 { Some(u128::from(n)) } else { number(word, 63) };
            member.filter(|member| restraint >> member & 1 == 0)
        })?;
        restraint |= 1 << member;
    }
    let sum = words.take(14, |word| signed(word, 64))? as i64;
    let readings_at = words.place();
    words.word(15, "readings")?;
    let (mut readings, mut weighed_at) = (vec![], vec![]);
    let mut optional = vec![];
    let (mut least, mut wants) = (NAMES, 16);
    while words.peek().is_some() || wants == 16 {
        let at = words.place();
        match words.peek() {
            Some(b"names") if wants == 17 => {
                words.next += 1;
                optional.extend([NAMES]);
                optional.extend((8 * v as u16).to_be_bytes());
                added.push((at, 3));
                for _ in 0..v {
                    added.push((words.place(), 8));
                    optional.extend(words.take(18, name)?);
                }
                wants = 19;
            }
            Some(b"other") if wants > 16 => {
                words.next += 1;
                least = words.take(20, |word| digits(word).filter(|tag| tag.len() == 1 && tag[0] > least).map(|tag| tag[0]))?;
                let at = words.place();
                let body = words.take(21, |word| if word == b"-" { Some(vec![]) } else { digits(word) })?;
                added.push((at, 3 + body.len()));
                optional.extend([least]);
                optional.extend((body.len() as u16).to_be_bytes());
                optional.extend(body);
                wants = 19;
            }
            _ => {
                readings.push(words.take(wants, |word| if wants == 19 { None } else { signed(word, 32) })? as i32);
                added.push((at, 4));
                weighed_at.push(at);
                wants = 17;
            }
        }
    }
    // more bytes than a file holds: the word that is too much
    let mut total = 0;
    for (at, bytes) in &added {
        total += bytes;
        if total > LIMIT - 36 {
            return Err(Unmade::Unread(*at, 22));
        }
    }
    let objects_at: Vec<usize> = added.iter().take(objects.len()).map(|(at, _)| *at).collect();
    let blocks = objects.len();
    let first = Draft { n, flag, p, m, objects, restraint, sum, readings }.file();
    let (file, start) = if optional.is_empty() { (first, 0) } else { ([&EDITION[..], &first, &optional].concat(), EDITION.len()) };
    let read = if start == 0 { job::read(&file).map(|_| ()) } else { second::read(&file).map(|_| ()) };
    read.map_err(|refusal| {
        let at = match refusal.number {
            4 => kind_at,
            6 => block_at,
            7 | 11 => restraint_at,
            3 => readings_at,
            5 => objects_at[refusal.place - start - 10],
            8 => weighed_at[(refusal.place - start - 10 - blocks - 22) / 4],
            other => panic!("a card's file is refused with {other}"),
        };
        Unmade::Refused(refusal.number, at)
    })?;
    Ok(file)
}

/// Line and column of a place of a card, both from 1 on.
pub fn line_and_column(card: &[u8], place: usize) -> (usize, usize) {
    let before = &card[..place];
    let line_start = before.iter().rposition(|byte| *byte == b'\n').map_or(0, |newline| newline + 1);
    (1 + before.iter().filter(|byte| **byte == b'\n').count(), 1 + place - line_start)
}
