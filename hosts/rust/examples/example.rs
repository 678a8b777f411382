//! Writes the job of example A, reads it, lists it, and checks two sheets of another laboratory against it. With a word, lists that job file instead.
#![forbid(unsafe_code)]

use mass_bench::{check_file, listing, read, write, Checked, ClaimedSpread, Head, Sheet};

fn main() -> Result<(), Box<dyn std::error::Error>> {
    if let Some(name) = std::env::args().nth(1) {
        print!("{}", listing(&std::fs::read(name)?)?);
        return Ok(());
    }
    // Objects 0 and 1, bits 0 and 1, are restrained to 7 counts together.
    let file = write(Head { n: 5, flag: 0, p: 2, m: 1 }, &[1, 4, 2, 3], 0b11, 7, &[11, -3, 4, 1, -8])?;
    println!("written: {} bytes", file.len());
    let job = read(&file)?;
    println!("read: n {}, readings from byte {}, sum {}", job.head.n, job.readings_at, job.sum);
    print!("{}", listing(&file)?);
    for hundredths in [vec![-30, 730, 190, 50, 510], vec![-30, 730, 190, 51, 510]] {
        match check_file(&file, &Sheet { hundredths, spread: Some(ClaimedSpread { value: 2.23, freedom: 1 }) })? {
            Checked::Agrees => println!("the sheet agrees"),
            Checked::Object(object) => println!("the sheet differs at object {object}"),
            Checked::Spread => println!("the sheet differs at its spread"),
        }
    }
    Ok(())
}
