//! Saves from settings: `item:squirter=2`, `flag:12=1`, `time:2=200`, on the command line or a line each in a file.

use crate::args::{Args, Opt, Takes};
use crate::files;
use crate::lines::{BadLine, Line, lines};
use crate::names::{Kind, Names};
use crate::said::Failure;
use locustkeno::{NUM_SLOTS, Refusal, Refused, Save, Sheet};
use std::mem;
use std::str::FromStr;

/// A file of settings, for the commands that take one save.
pub const SAVE: Opt = Opt {
    name: "--save",
    takes: Takes::One,
    value: "SAVE",
    about: "a file of settings, one a line; those of the command line come after it",
};

/// The first of the variables that a slot's item is left in.
const ITEMS_AT: usize = 600;

/// A save with 0 everywhere, but that the twenty item variables are -1: a slot that a run does not write is hidden.
pub fn start(sheet: &Sheet) -> Save {
    let mut save = Save::new(sheet);
    save.variables[ITEMS_AT..][..NUM_SLOTS].fill(-1);
    save
}

fn put<T: FromStr>(part: &mut [T], kind: Kind, which: &str, value: &str) -> Result<(), String> {
    let (kind, many) = (kind.word(), part.len());
    let at: Result<usize, _> = which.parse();
    let place = at.ok().and_then(|at| part.get_mut(at));
    let place = place.ok_or_else(|| format!("there is no {kind} {which}: there are {many}"))?;
    let value = value
        .parse()
        .map_err(|_| format!("`{value}` is no value for {kind} {which}"))?;
    *place = value;
    Ok(())
}

/// Puts a setting into a save. Whether a value is one that a save may have is the library's to say (refusal 12).
fn set(save: &mut Save, setting: &str, names: &Names) -> Result<(), String> {
    let due = || format!("`{setting}` is no setting, as `item:7=2` or `flag:12=1` is");
    let (subject, value) = setting.split_once('=').ok_or_else(due)?;
    let (kind, which) = subject.split_once(':').ok_or_else(due)?;
    let kind = Kind::of(kind).ok_or_else(due)?;
    let which = &names.number(kind, which)?;
    match kind {
        Kind::Item => put(&mut save.items, kind, which, value),
        Kind::Atc => put(&mut save.atcs, kind, which, value),
        Kind::Flag => put(&mut save.flags, kind, which, value),
        Kind::Time => put(&mut save.times, kind, which, value),
        Kind::Variable => put(&mut save.variables, kind, which, value),
    }
}

/// The settings of one kind that are not what a save begins with.
fn changed<T: Copy + PartialEq + Into<i32>>(
    kind: Kind,
    now: &[T],
    before: &[T],
    names: &Names,
) -> Vec<String> {
    let pairs = (0..).zip(now.iter().zip(before));
    let others = pairs.filter(|(_, (now, before))| now != before);
    let told = others.map(|(i, (now, _))| {
        let value: i32 = (*now).into();
        format!("{} {} = {value}", kind.word(), names.label(kind, i))
    });
    told.collect()
}

/// What sets a save apart from the one that has nothing, for a reader: `item 7 toothbrush = 2`.
pub fn told(save: &Save, sheet: &Sheet, names: &Names) -> Vec<String> {
    let before = start(sheet);
    [
        changed(Kind::Item, &save.items, &before.items, names),
        changed(Kind::Atc, &save.atcs, &before.atcs, names),
        changed(Kind::Flag, &save.flags, &before.flags, names),
        changed(Kind::Time, &save.times, &before.times, names),
        changed(Kind::Variable, &save.variables, &before.variables, names),
    ]
    .concat()
}

/// A save with its name.
#[derive(Debug, Clone, PartialEq, Eq)]
pub struct Named {
    pub name: String,
    pub save: Save,
}

/// The name of a line `save NAME`, with which a further save begins.
fn heading<'a>(line: &Line<'a>) -> Option<&'a str> {
    match line.words[..] {
        ["save", name] => Some(name),
        _ => None,
    }
}

/// Each save of a text: settings, one or more a line; a line `save NAME` begins a further one. Without such a line it is one save with
/// the name that is given. A short text may have very many, so they are handed on one by one.
pub fn each(
    text: &str,
    name: &str,
    sheet: &Sheet,
    names: &Names,
    mut found: impl FnMut(Named),
) -> Result<(), BadLine> {
    let named = |name: &str| Named {
        name: name.to_owned(),
        save: start(sheet),
    };
    let mut open = named(name);
    let mut any = false;
    for line in lines(text) {
        if let Some(name) = heading(&line) {
            let done = mem::replace(&mut open, named(name));
            if any {
                found(done);
            }
        } else {
            for word in &line.words {
                set(&mut open.save, word, names).map_err(|why| line.bad(why))?;
            }
        }
        any = true;
    }
    found(open);
    Ok(())
}

/// Each save of a file.
pub fn each_of_file(
    file: &str,
    sheet: &Sheet,
    names: &Names,
    found: impl FnMut(Named),
) -> Result<(), Failure> {
    let text = files::read_text(file)?;
    each(&text, file, sheet, names, found).map_err(|bad| Failure::at(file, &bad))
}

/// The only save of a file.
pub fn one_of_file(file: &str, sheet: &Sheet, names: &Names) -> Result<Save, Failure> {
    let mut many = 0;
    let mut last = None;
    each_of_file(file, sheet, names, |named| {
        many += 1;
        last = Some(named.save);
    })?;
    last.filter(|_| many == 1)
        .ok_or_else(|| Failure::of(file, format!("has {many} saves, one is due")))
}

/// The save of a command: that of `--save`, with the settings of the command line.
pub fn of_args(
    args: &Args,
    settings: &[&str],
    sheet: &Sheet,
    names: &Names,
) -> Result<Save, Failure> {
    let mut save = match args.one(SAVE.name) {
        Some(file) => one_of_file(file, sheet, names)?,
        None => start(sheet),
    };
    for setting in settings {
        set(&mut save, setting, names).map_err(|why| Failure::of(setting, why))?;
    }
    Ok(save)
}

/// A refusal of a call under the save of a command, with the file that it is about: of refusal 12 that of the save and the settings.
pub fn refused(args: &Args, refused: Refused) -> Failure {
    let (file, settings) = (&args.words[..1], &args.words[1..]);
    let mut about: Vec<&str> = file.to_vec();
    if refused == Refusal::BadSave {
        about = args.one(SAVE.name).into_iter().collect();
        about.extend(settings);
    }
    Failure::of(&about.join(" "), refused)
}

#[cfg(test)]
mod tests {
    use super::{Named, each, set, start, told};
    use crate::lines::BadLine;
    use crate::names::Names;
    use locustkeno::{Item, Sheet};

    fn sheet() -> Sheet {
        Sheet::new(&[None; 8], 2, [0, 1, 2].map(Item))
    }

    /// All saves of a text.
    fn many(text: &str) -> Result<Vec<Named>, BadLine> {
        let mut saves = Vec::new();
        let names = Names::default();
        each(text, "x", &sheet(), &names, |named| saves.push(named)).map(|()| saves)
    }

    #[test]
    fn every_kind() {
        let names = Names::read("item 7 comb\ntime 2 rate").unwrap();
        let mut save = start(&sheet());
        for setting in [
            "item:comb=2",
            "atc:1=1",
            "flag:2047=1",
            "time:rate=-200",
            "var:0=70000",
        ] {
            assert_eq!(set(&mut save, setting, &names), Ok(()));
        }
        assert_eq!((save.items[7], save.atcs[1], save.flags[2_047]), (2, 1, 1));
        assert_eq!((save.times[2], save.variables[0]), (-200, 70_000));
        assert_eq!((save.pair(0), save.pair(19)), ((-1, 0), (-1, 0)));
        let settings = told(&save, &sheet(), &names);
        let due = "item 7 comb = 2; atc 1 = 1; flag 2047 = 1; time 2 rate = -200; var 0 = 70000";
        assert_eq!(settings.join("; "), due);
        assert!(told(&start(&sheet()), &sheet(), &names).is_empty());
    }

    #[test]
    fn wrong_settings() {
        let mut save = start(&sheet());
        let mut why = |setting| set(&mut save, setting, &Names::default()).unwrap_err();
        assert_eq!(why("item:8=1"), "there is no item 8: there are 8");
        assert_eq!(why("item:7=40000"), "`40000` is no value for item 7");
        assert_eq!(why("item:comb=1"), "there is no item with the name `comb`");
        for setting in ["item:7", "item=7", "thing:7=1", "7=1", ""] {
            assert!(why(setting).contains("is no setting"), "{setting}");
        }
        assert_eq!(save, start(&sheet()));
    }

    #[test]
    fn files_of_saves() {
        let text = "# two\nsave early\nitem:7=1 flag:3=1\n\nsave late\nflag:3=0\n";
        let saves = many(text).unwrap();
        let told: Vec<_> = saves
            .iter()
            .map(|s| (s.name.as_str(), s.save.items[7]))
            .collect();
        assert_eq!(told, [("early", 1), ("late", 0)]);
        let saves = many("flag:3=1\nsave late\n").unwrap();
        let told: Vec<_> = saves
            .iter()
            .map(|s| (s.name.as_str(), s.save.flags[3]))
            .collect();
        assert_eq!(told, [("x", 1), ("late", 0)]);
        let saves = many("").unwrap();
        assert_eq!((saves.len(), &saves[0].save), (1, &start(&sheet())));
        assert_eq!(many("\nitem:9=1").unwrap_err().line, 2);
    }
}
