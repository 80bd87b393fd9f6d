//! Shops as text and back: round trips, each reason, and any bytes against a plain reader.

use locustkeno::{Atc, BadText, Item, Requirement, Shop, Slot, TextReason};
use std::thread;

/// Small numbers that repeat, the same for every run.
fn numbers() -> impl FnMut(u32) -> u32 {
    let mut state = 7_u32;
    move |below| {
        state = state.wrapping_mul(1_664_525).wrapping_add(1_013_904_223);
        (state >> 8) % below
    }
}

fn requirement(next: &mut impl FnMut(u32) -> u32) -> Requirement {
    let flag = next(5_000) as i32 - 2_500;
    match next(6) {
        0 => Requirement::HaveItem(Item(next(600) as u16)),
        1 => Requirement::MissingItem(Item(next(600) as u16)),
        2 => Requirement::HaveAtc(Atc(next(70) as u16)),
        3 => Requirement::MissingAtc(Atc(next(70) as u16)),
        4 => Requirement::HaveFlag(flag),
        _ => Requirement::MissingFlag(flag),
    }
}

fn slot(next: &mut impl FnMut(u32) -> u32) -> Slot {
    let count = next(15);
    Slot {
        item: (next(3) > 0).then(|| Item(next(600) as u16)),
        limit: (next(40) as i16) - 20,
        requirements: (0..count).map(|_| requirement(next)).collect(),
    }
}

#[test]
fn what_is_printed_reads_back() {
    let mut next = numbers();
    for _ in 0..2_000 {
        let count = next(21) as usize;
        let shop = Shop::with_slots((0..count).map(|_| slot(&mut next)).collect::<Vec<_>>());
        let read: Shop = shop.to_string().parse().unwrap();
        assert_eq!(read.arrays(), shop.arrays());
    }
}

#[test]
fn extremes_read_back() {
    for text in ["F2147483647", "f-2147483648", "I65535", "a0"] {
        assert_eq!(
            text.parse::<Requirement>().map(|r| r.to_string()),
            Ok(text.to_owned())
        );
    }
}

#[test]
fn only_the_printed_form_is_read() {
    let short: Result<Shop, _> = "0 - 0\n".parse();
    assert_eq!(short.unwrap_err().line, 2);
    for text in [
        "",
        "7",
        "7 03",
        "7 3 ",
        "7  3",
        "+7 3",
        "7 3 X1",
        "7 3 F",
        "7 32768",
        "65536 1",
        "7 3 F2147483648",
        "7 3\n",
        "7 3\n1 - 0",
    ] {
        assert!(text.parse::<Slot>().is_err(), "{text}");
    }
    for text in ["", "F", "F1 F2", "F1\n", "I65536", "A-1"] {
        assert!(text.parse::<Requirement>().is_err(), "{text}");
    }
}

/// The text of the empty shop with another line for one slot.
fn with_line(i: usize, line: &str) -> String {
    let mut lines: Vec<String> = (0..20).map(|i| format!("{i} - 0\n")).collect();
    lines[i] = line.to_owned();
    lines.concat()
}

fn refused(text: &str) -> (usize, u8) {
    let bad = text.parse::<Shop>().expect_err(text);
    (bad.line, bad.reason.number())
}

#[test]
fn each_reason_is_told() {
    assert_eq!(refused(""), (1, 1));
    for (line, reason) in [
        ("3 - 0\n", 1),
        ("04 - 0\n", 1),
        ("4\n", 1),
        ("4 x 0\n", 2),
        ("4 65536 0\n", 2),
        ("4 007 0\n", 2),
        ("4 -\n", 2),
        ("4 - x\n", 3),
        ("4 - -0\n", 3),
        ("4 - 32768\n", 3),
        ("4 - -32769\n", 3),
        ("4 - 0 Q9\n", 4),
        ("4 - 0 I-1\n", 4),
        ("4 - 0 \n", 4),
        ("4 - 0 F2147483648\n", 4),
        ("4 - 0 F-2147483649\n", 4),
        ("4 - 0 I65536\n", 4),
        ("4 - 0 A2147483647\n", 4),
        ("4 - 0 F1 F2 F3 F4 F5 F6 F7 F8 F9 F1 F2 F3 F4 F5 F6\n", 5),
        ("4 - 007\n", 6),
        ("4 - 0 F1x\n", 6),
        ("4 - 0\r\n", 6),
    ] {
        assert_eq!(refused(&with_line(4, line)), (5, reason), "{line}");
    }
    assert_eq!(refused(&with_line(19, "19 - 0")), (20, 6));
    assert_eq!(refused(&with_line(19, "19 - 0\n\n")), (21, 7));
}

#[test]
fn bounds_are_read() {
    for line in [
        "4 65535 32767\n",
        "4 0 -32768\n",
        "4 - 0 F2147483647 f-2147483648 I65535 a0\n",
        "4 - 0 F1 F2 F3 F4 F5 F6 F7 F8 F9 F1 F2 F3 F4 F5\n",
    ] {
        let text = with_line(4, line);
        assert_eq!(text.parse::<Shop>().expect(line).to_string(), text);
    }
}

/// What the program `slots` printed.
#[test]
fn samples_read_back() {
    for text in [
        include_str!("../../../samples/worked.txt"),
        include_str!("../../../samples/shop.txt"),
    ] {
        assert_eq!(text.parse::<Shop>().expect(text).to_string(), text);
    }
}

#[test]
fn the_line_and_the_reason_are_told() {
    let bad = with_line(4, "4 7 3 F2 Q9\n").parse::<Shop>().unwrap_err();
    let expected = BadText {
        line: 5,
        found: "4 7 3 F2 Q9".into(),
        reason: TextReason::NoRequirement,
    };
    assert_eq!(bad, expected);
    assert_eq!(
        bad.to_string(),
        "line 5: `4 7 3 F2 Q9`: a requirement is a letter of IiAaFf and a number that fits"
    );
}

/// Nothing that was given is left out, though the library prints no such shop and reads no such text.
#[test]
fn entries_past_the_last_are_shown() {
    let slot = Slot {
        requirements: vec![Requirement::HaveFlag(1); 15].into(),
        ..Slot::default()
    };
    let text = Shop::with_slots([slot]).to_string();
    assert_eq!(
        text.lines().next(),
        Some(&*format!("0 - 0{}", " F1".repeat(15)))
    );
    let bad = text.parse::<Shop>().unwrap_err();
    assert_eq!((bad.line, bad.reason), (1, TextReason::ManyRequirements));
}

/// A reader of the text that was written from its description, without the library.
mod plain {
    use locustkeno::{Atc, Item, Requirement, Slot};

    type Part<'a, T> = Option<(T, &'a [u8])>;

    /// No 0 in front, and below the bound.
    fn natural(s: &[u8], below: i64) -> Part<'_, i64> {
        if s.first() == Some(&b'0') {
            return Some((0, &s[1..]));
        }
        let digits = s.iter().take_while(|b| b.is_ascii_digit()).count();
        let value: i64 = std::str::from_utf8(&s[..digits]).ok()?.parse().ok()?;
        (value < below).then_some((value, &s[digits..]))
    }

    fn signed(s: &[u8], below: i64) -> Part<'_, i64> {
        let Some(rest) = s.strip_prefix(b"-") else {
            return natural(s, below);
        };
        let (value, rest) = natural(rest, below + 1)?;
        (value > 0).then_some((-value, rest))
    }

    fn item(s: &[u8]) -> Part<'_, Option<Item>> {
        if let Some(rest) = s.strip_prefix(b"- ") {
            return Some((None, rest));
        }
        let (value, rest) = natural(s, 1 << 16)?;
        Some((Some(Item(value as u16)), rest.strip_prefix(b" ")?))
    }

    /// A requirement, and whether its id is over 16 bits.
    fn requirement(s: &[u8]) -> Part<'_, (Requirement, bool)> {
        let (letter, rest) = s.split_first()?;
        let is_flag = letter.eq_ignore_ascii_case(&b'f');
        let (n, rest) = if is_flag {
            signed(rest, 1 << 31)?
        } else {
            natural(rest, 1 << 31)?
        };
        let (item, atc) = (Item(n as u16), Atc(n as u16));
        let is = match letter {
            b'I' => Requirement::HaveItem(item),
            b'i' => Requirement::MissingItem(item),
            b'A' => Requirement::HaveAtc(atc),
            b'a' => Requirement::MissingAtc(atc),
            b'F' => Requirement::HaveFlag(n as i32),
            b'f' => Requirement::MissingFlag(n as i32),
            _ => return None,
        };
        Some(((is, !is_flag && n > 65_535), rest))
    }

    /// The slot of a line, whether an id of it is over 16 bits, and what follows the line; or the reason.
    fn line(i: usize, s: &[u8]) -> Result<((Slot, bool), &[u8]), u8> {
        let rest = s.strip_prefix(format!("{i} ").as_bytes()).ok_or(1)?;
        let (item, rest) = item(rest).ok_or(2)?;
        let (limit, mut rest) = signed(rest, 1 << 15).ok_or(3)?;
        let (mut requirements, mut wide) = (Vec::new(), false);
        while let Some(next) = rest.strip_prefix(b" ") {
            if requirements.len() == 14 {
                return Err(5);
            }
            let ((requirement, is_wide), next) = requirement(next).ok_or(4)?;
            requirements.push(requirement);
            (wide, rest) = (wide | is_wide, next);
        }
        let rest = rest.strip_prefix(b"\n").ok_or(6)?;
        let limit = limit as i16;
        let slot = Slot {
            item,
            limit,
            requirements: requirements.into(),
        };
        Ok(((slot, wide), rest))
    }

    /// The slots, or the line and the reason.
    pub fn shop(mut s: &[u8]) -> Result<Vec<Slot>, (usize, u8)> {
        let (mut slots, mut first_wide) = (Vec::new(), None);
        for i in 0..20 {
            let ((slot, wide), rest) = line(i, s).map_err(|reason| (i + 1, reason))?;
            if wide && first_wide.is_none() {
                first_wide = Some((i + 1, 4));
            }
            slots.push(slot);
            s = rest;
        }
        match first_wide {
            _ if !s.is_empty() => Err((21, 7)),
            Some(wide) => Err(wide),
            None => Ok(slots),
        }
    }
}

/// One byte of a text put in, taken out or changed, or put behind it.
fn mutate(text: &mut Vec<u8>, next: &mut impl FnMut(u32) -> u32) {
    let bytes = b" \n-0123456789IiAaFfx\r\xFF";
    let byte = bytes[next(bytes.len() as u32) as usize];
    let at = next(text.len() as u32) as usize;
    match next(30) {
        0 => text.push(byte),
        n if n % 3 == 0 => text.insert(at, byte),
        n if n % 3 == 1 => drop(text.remove(at)),
        _ => text[at] = byte,
    }
}

#[test]
fn any_bytes_are_read_as_a_plain_reader_reads_them() {
    let mut next = numbers();
    let (mut read, mut reasons) = (0, [0; 8]);
    for _ in 0..100_000 {
        let count = next(6) as usize;
        let shop = Shop::with_slots((0..count).map(|_| slot(&mut next)).collect::<Vec<_>>());
        let mut text = shop.to_string().into_bytes();
        for _ in 0..next(3) {
            mutate(&mut text, &mut next);
        }
        let told = Shop::from_text(&text);
        if let Ok(shop) = &told {
            assert_eq!(shop.to_string().as_bytes(), text);
            read += 1;
        }
        // As lines, in which the order of requirements shows.
        let lines = |slots: &[Slot]| slots.iter().map(Slot::to_string).collect::<Vec<_>>();
        let told = told.map(|shop| lines(shop.slots()));
        let told = told.map_err(|bad| (bad.line, bad.reason.number()));
        if let Err((_, reason)) = told {
            reasons[usize::from(reason)] += 1;
        }
        assert_eq!(
            told,
            plain::shop(&text).map(|slots| lines(&slots)),
            "{}",
            String::from_utf8_lossy(&text)
        );
    }
    assert!(read > 10_000, "{read}");
    assert!(reasons[1..].iter().all(|n| *n > 10), "{reasons:?}");
}

/// With just the stack that the header promises to be enough: too little ends the whole test program.
#[test]
fn stack() {
    let slot = Slot {
        item: Some(Item(u16::MAX)),
        limit: i16::MIN,
        requirements: vec![Requirement::MissingFlag(i32::MIN); 14].into(),
    };
    let shop = Shop::with_slots(vec![slot; 20]);
    thread::scope(|scope| {
        let builder = thread::Builder::new().stack_size(64 << 10);
        let call = builder.spawn_scoped(scope, || shop.to_string().parse());
        assert_eq!(call.unwrap().join().unwrap(), Ok(shop.clone()));
    });
}
