//! Two workshops keep the same fingerprints, reached in different ways, and compare images.

use btreap::{Found, Measure, Place, Question, Refusal};

const SLOTS: usize = 64;

/// The two workshops have no salt; a neighbour has one of its own.
const NO_SALT: u64 = 0;
const SALT: u64 = 0x5EED;

/// The first workshop inserts keys one by one, one too many, and deletes that one. Lasts 512 and 41 are measured.
fn first_workshop(table: &mut [u64]) -> Result<(), Refusal> {
    btreap::set_up(table, 3, NO_SALT)?;
    btreap::insert_measured(table, 512, Measure::new(26_500, -120))?;
    for key in [7, 99, 3000, 8] {
        btreap::insert(table, key)?;
    }
    btreap::insert_measured(table, 41, Measure::new(31_000, 45))?;
    btreap::delete(table, 99)?;
    Ok(())
}

/// The second builds its table from a rising list of keys, and their lengths and corrections. So does the neighbour.
fn second_workshop(table: &mut [u64], salt: u64) -> Result<(), Refusal> {
    btreap::build_measured(table, 3, salt, &[7, 8, 41, 512, 3000], &[0, 0, 31_000, 26_500, 0], &[0, 0, 45, -120, 0])
}

/// What a lookup says of a held key.
fn look_up(table: &[u64], key: u64) -> Result<(), Refusal> {
    if let Found::Held { rank, count, leader, blocks, measure } = btreap::look_up(table, key)? {
        print!("{key}: held 1, rank {rank}, count {count}, leader {leader}, blocks {blocks}");
        match measure {
            Measure::NONE => println!(", not measured"),
            Measure { length, correction } => println!(", length {length}, correction {correction}"),
        }
    }
    Ok(())
}

/// Whether a key with this measure is taken, or refused for it.
fn try_measure(length: u64, correction: i32) -> Result<(), Refusal> {
    let mut table = vec![0; btreap::table_words(1)];
    btreap::set_up(&mut table, 3, NO_SALT)?;
    let reply = match btreap::insert_measured(&mut table, 7, Measure::new(length, correction)) {
        Err(Refusal::WrongMeasure) => "refused",
        other => other.map(|_| "taken")?,
    };
    println!("length {length}, correction {correction}: {reply}");
    Ok(())
}

/// At each end of the rules a measure is taken, and one beyond it is refused.
fn ends_of_the_rules() -> Result<(), Refusal> {
    let (least, greatest) = Measure::LENGTHS.into_inner();
    let (lowest, highest) = Measure::CORRECTIONS.into_inner();
    try_measure(least, lowest)?;
    try_measure(greatest, highest)?;
    try_measure(least - 1, 0)?;
    try_measure(greatest + 1, 0)?;
    try_measure(least, lowest - 1)?;
    try_measure(greatest, highest + 1)
}

/// A key that is held is refused also with another measure.
fn another_measure(table: &mut [u64]) {
    if let Err(refusal) = btreap::insert_measured(table, 512, Measure::new(26_501, -120)) {
        println!("another measure: refused, {}", refusal.number());
    }
}

/// Every key of a table, step by step.
fn print_keys(table: &[u64]) -> Result<(), Refusal> {
    let mut place = Place::ALL;
    print!("keys:");
    while let Some(key) = btreap::step(table, &mut place)? {
        print!(" {key}");
    }
    println!();
    Ok(())
}

/// A table's image.
fn image_of(table: &[u64]) -> Result<Vec<u8>, Refusal> {
    let mut image = vec![0; btreap::LONGEST_IMAGE];
    let size = btreap::write(table, &mut image)?;
    image.truncate(size);
    Ok(image)
}

fn yes_or_no(answer: bool) -> &'static str {
    if answer {
        "yes"
    } else {
        "no"
    }
}

/// An order sheet names some fingerprints, rising: which of them are held? They are looked up together.
fn look_up_together(table: &[u64]) -> Result<(), Refusal> {
    let mut batch = [8, 40, 41, 512].map(Question::new);
    let blocks = btreap::look_up_batch(table, &mut batch)?;
    print!("batch:");
    for Question { key, held, rank } in batch {
        print!(" {key} held {held} rank {rank},");
    }
    println!(" blocks {blocks}");
    Ok(())
}

/// Both run one load, in tables of different sizes, and compare images.
fn compare_loads() -> Result<(), Refusal> {
    let run = |slots| {
        let mut table = vec![0; btreap::table_words(slots)];
        btreap::load(&mut table, 16, 2026, 1000)?;
        image_of(&table)
    };
    let (sent, kept) = (run(600)?, run(4096)?);
    println!("image of the load: {} bytes", sent.len());
    println!("images agree: {}", yes_or_no(sent == kept));
    Ok(())
}

/// The five keys on a page, to be pinned up.
fn print_pages(table: &[u64]) -> Result<(), Refusal> {
    let mut text = vec![0; btreap::pages_bytes(5)];
    let size = btreap::pages(table, &mut text)?;
    print!("{}", String::from_utf8_lossy(&text[..size]));
    Ok(())
}

/// Under a salt the same lasts have other ranks and slots: another table, another image. Whoever reads the image gets the salt with them.
fn under_a_salt(table: &[u64]) -> Result<(), Refusal> {
    let mut salted = vec![0; btreap::table_words(SLOTS)];
    second_workshop(&mut salted, SALT)?;
    println!("under a salt, tables agree: {}", yes_or_no(salted == table));
    look_up(&salted, 512)?;
    let image = image_of(&salted)?;
    println!("image: {} bytes", image.len());
    let mut read = table.to_vec();
    btreap::read(&mut read, &image)?;
    println!("read by another: {}", yes_or_no(read == salted));
    Ok(())
}

fn main() -> Result<(), Refusal> {
    let mut first = vec![0; btreap::table_words(SLOTS)];
    let mut second = first.clone();
    let mut third = first.clone();
    first_workshop(&mut first)?;
    second_workshop(&mut second, NO_SALT)?;
    print_keys(&first)?;
    println!("tables agree: {}", yes_or_no(first == second));

    let (mut sent, kept) = (image_of(&first)?, image_of(&second)?);
    println!("image: {} bytes", sent.len());
    println!("images agree: {}", yes_or_no(sent == kept));

    look_up(&first, 512)?;
    look_up(&first, 3000)?;
    look_up_together(&first)?;
    ends_of_the_rules()?;
    another_measure(&mut first);

    btreap::read(&mut third, &sent)?;
    println!("read back: {}", yes_or_no(third == first));

    sent[20] ^= 1;
    if let Err(refusal) = btreap::read(&mut third, &sent) {
        println!("damaged image: refused, {}", refusal.number());
    }

    let mut text = vec![0; 10 * kept.len()];
    let size = btreap::list(&kept, &mut text)?;
    print!("{}", String::from_utf8_lossy(&text[..size]));

    compare_loads()?;
    print_pages(&first)?;
    under_a_salt(&first)
}
