//! The program `slots` of document 01: its input, its answer and its print.

use crate::image::{self, Reader, Refusal};
use crate::plain::{Script, Sheet, Slot};
use crate::rules;

/// The most bytes that the input may have.
pub const INPUT: usize = 65_536;

/// The letters of the requirement kinds in sorting order.
const LETTERS: [char; 6] = ['I', 'i', 'A', 'a', 'F', 'f'];

/// What the input says.
#[derive(Debug, Clone, PartialEq, Eq)]
pub struct Input {
    pub sheet: Sheet,
    pub setup: u32,
    pub script: Script,
}

/// Refuses with 1 unless a number of the sheet is in its range.
fn in_range(fits: bool) -> Result<(), Refusal> {
    if fits { Ok(()) } else { Err(Refusal(1)) }
}

/// Reads a sheet, judging each number as it is read.
pub fn read_sheet(reader: &mut Reader) -> Result<Sheet, Refusal> {
    let items = reader.number()?;
    in_range((3..=512).contains(&items))?;
    let atcs = reader.number()?;
    in_range(atcs <= 64)?;
    let mut atc_of = Vec::new();
    for _ in 0..items {
        let atc = reader.number()?;
        in_range(atc <= atcs)?;
        atc_of.push(atc.checked_sub(1).map(|a| a as u16));
    }
    let mut timers = [0; 3];
    for at in 0..3 {
        let timer = reader.number()?;
        in_range(timer < items && !timers[..at].contains(&(timer as u16)))?;
        timers[at] = timer as u16;
    }
    Ok(Sheet {
        atc_of,
        atcs: atcs as u16,
        timers,
    })
}

/// Writes a sheet as the input has it.
pub fn put_sheet(out: &mut Vec<u8>, sheet: &Sheet) {
    image::put_number(out, sheet.items() as u32);
    image::put_number(out, sheet.atcs.into());
    for atc in &sheet.atc_of {
        image::put_number(out, atc.map_or(0, |a| u32::from(a) + 1));
    }
    for timer in sheet.timers {
        image::put_number(out, timer.into());
    }
}

/// Writes the input as a whole.
pub fn write(input: &Input) -> Vec<u8> {
    let mut out = Vec::new();
    put_sheet(&mut out, &input.sheet);
    image::put_number(&mut out, input.setup);
    out.extend(image::write(&input.script));
    out
}

/// Reads the input, with refusals 1 to 5.
pub fn read(bytes: &[u8]) -> Result<Input, Refusal> {
    if bytes.len() > INPUT {
        return Err(Refusal(3));
    }
    let mut reader = Reader::new(bytes);
    let sheet = read_sheet(&mut reader)?;
    let setup = reader.number()?;
    let script = reader.script()?;
    Ok(Input {
        sheet,
        setup,
        script,
    })
}

/// The slots that the program prints, or its refusal.
pub fn answer(bytes: &[u8]) -> Result<Vec<Slot>, Refusal> {
    let input = read(bytes)?;
    rules::parse(&input.sheet, &input.script, input.setup as usize)
}

/// What the program prints.
pub fn print(answer: &Result<Vec<Slot>, Refusal>) -> String {
    match answer {
        Ok(slots) => slots
            .iter()
            .enumerate()
            .map(|(i, slot)| line(i, slot))
            .collect(),
        Err(Refusal(number)) => format!("refused {number}\n"),
    }
}

fn line(index: usize, slot: &Slot) -> String {
    let item = slot.item.map_or("-".to_string(), |i| i.to_string());
    let mut line = format!("{index} {item} {}", slot.limit);
    for requirement in &slot.requirements {
        let (kind, number) = requirement.parts();
        line += &format!(" {}{number}", LETTERS[usize::from(kind)]);
    }
    line + "\n"
}
