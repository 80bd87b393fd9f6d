//! The whole week through the built program, with wrong input at each step: a clear error, status 2, nothing lost or half written.

mod common;

use common::Week;
use std::fs;

/// Files that are wrong, each in its own way.
fn spoil(week: &Week) {
    let stage = week.read("stage.bin");
    week.write("cut.bin", &stage[..stage.len() - 3]);
    let mut sheet = stage.clone();
    sheet[0] = 2;
    week.write("sheet.bin", sheet);
    // Timer15 is Timer10 again.
    let mut timers = stage.clone();
    timers[16] = timers[15];
    week.write("timers.bin", timers);
    week.write("long.bin", vec![0; 65_537]);
    week.write("empty.bin", []);
    let mut setup = stage;
    setup[17] = 7;
    week.write("setup.bin", setup);
    week.changed("monday.txt", "squirter", "squirtle", "unknown.txt");
    week.changed(
        "monday.txt",
        "!flag:met_telly",
        "!flag:met_tally",
        "flagless.txt",
    );
    week.changed("monday.txt", "3 timer10 1", "3 timer10 01", "number.txt");
    week.changed("monday.txt", "19 - 0\n", "", "short.txt");
    week.changed("monday.txt", "5 radar", "6 radar", "order.txt");
    week.changed("monday.txt", "4 spoon", "4 500", "item.txt");
    week.changed("names.txt", "item 5 mug", "item 4 mug", "twice.txt");
    week.changed("names.txt", "atc 0 hose", "atc hose 0", "turned.txt");
    week.write("latin.txt", [b'#', b'\n', 0xE9]);
}

/// What is wrong with a stage file, and the refusal that tells.
const STAGES: [(&str, &str); 7] = [
    ("cut.bin", "(refusal 2)"),
    ("sheet.bin", "(refusal 1)"),
    ("timers.bin", "(refusal 1)"),
    ("long.bin", "(refusal 3)"),
    ("empty.bin", "(refusal 2)"),
    ("setup.bin", "(refusal 6)"),
    ("nowhere.bin", "No such file"),
];

/// Every command that reads a stage says what is wrong with it, by file, number and sentence.
fn wrong_stages(week: &Week) {
    for (file, why) in STAGES {
        for line in [
            "show FILE",
            "export FILE --out monday.txt",
            "import FILE monday.txt monday.bin --names names.txt",
            "diff FILE stage.bin",
            "diff stage.bin FILE",
            "check FILE",
            "preview FILE item:7=1",
            "settings FILE",
            "sweep FILE saves.txt --names names.txt",
            "shopper FILE --tariff tariff.txt --names names.txt --money 5 --wish 0",
            "approve FILE --out monday.txt",
            "approve stage.bin FILE --out monday.txt",
        ] {
            week.refused(&line.replace("FILE", file), &[&format!("{file}: "), why]);
        }
    }
    week.refused("run cut.bin --budget x", &["run: the budget is no number"]);
    week.refused(
        "bill cut.bin --tariff tariff.txt",
        &["cut.bin: ", "(refusal 2)"],
    );
    week.refused(
        "reclaim setup.bin monday.bin",
        &["setup.bin: ", "(refusal 18)"],
    );
}

/// A wrong text, or the names for it, and what is said of it.
const TEXTS: &str = "
unknown.txt --names names.txt => unknown.txt: line 4: there is no item with the name `squirtle`
flagless.txt --names names.txt => flagless.txt: line 3: there is no flag with the name `met_tally`
number.txt --names names.txt => number.txt: line 6:
short.txt --names names.txt => short.txt: line 22:
order.txt --names names.txt => order.txt: line 8:
item.txt --names names.txt => item.txt: | (refusal 8)
latin.txt --names names.txt => latin.txt: line 2: is not UTF-8 text
nowhere.txt --names names.txt => nowhere.txt: No such file
monday.txt --names twice.txt => twice.txt: line 6: item 4 was named before
monday.txt --names turned.txt => turned.txt: line 11: `hose` is not a number
monday.txt --names nowhere.txt => nowhere.txt: No such file
monday.txt => monday.txt: line 3: there is no item with the name `toothbrush`
";

/// The lines of a table: what is asked, and the words that the answer has.
fn cases(table: &str) -> impl Iterator<Item = (&str, Vec<&str>)> {
    let cases = table.lines().filter_map(|line| line.split_once(" => "));
    cases.map(|(asked, words)| (asked, words.split(" | ").collect()))
}

/// A text that is wrong is refused by its line, and the last pressing stays.
fn wrong_texts(week: &Week) {
    for (text, words) in cases(TEXTS) {
        let text = text.replacen(".txt", ".txt monday.bin", 1);
        week.refused(&format!("import monday.bin {text}"), &words);
        let text = text.replacen(" monday.bin", "", 1);
        week.refused(&format!("check monday.bin {text}"), &words);
    }
    let loader = "import monday.bin monday.txt monday.bin --names names.txt --loader tape";
    week.refused(loader, &["import: there is no loader `tape`"]);
}

/// A disk that takes no more: nothing is half written, and what was there stays.
fn full_disk(week: &Week) {
    let import = "import stage.bin monday.txt OUT --names names.txt";
    for (out, why) in [
        ("missing/monday.bin", "No such file"),
        ("/dev/full", "is not a plain file"),
        (".", "is not a plain file"),
        ("/proc/monday.bin", ""),
    ] {
        week.refused(&import.replace("OUT", out), &[out, why]);
        week.refused(&format!("reclaim monday.bin {out}"), &[out, why]);
        week.refused(&format!("export monday.bin --out {out}"), &[out, why]);
        week.refused(&format!("approve monday.bin --out {out}"), &[out, why]);
    }
    // The file may grow to 512 bytes, and the image is longer.
    let limited = "ulimit -f 1; trap '' XFSZ; exec locustkeno";
    week.refused(
        &format!("{limited} {}", import.replace("OUT", "monday.bin")),
        &["monday.bin: ", "large"],
    );
    week.refused(
        &format!("{limited} approve monday.bin --out early.txt"),
        &["early.txt: ", "large"],
    );
    if fs::metadata("/dev/full").is_ok() {
        for command in [
            "show monday.bin",
            "export monday.bin",
            "approve monday.bin",
            "--help",
        ] {
            let line = format!("locustkeno {command} > /dev/full");
            week.refused(&line, &["standard output: ", "No space left"]);
        }
    }
}

/// Saves, tariffs and arguments that are wrong, and what is said of them.
const QUESTIONS: &str = "
preview monday.bin --save save.txt --names names.txt => save.txt: line 2: there is no flag with the name `nobody`
preview monday.bin --save saves.txt --names names.txt => saves.txt: has 3 saves, one is due
preview monday.bin --save two.txt => two.txt: | (refusal 12)
preview monday.bin --save two.txt item:7=1 => two.txt item:7=1: | (refusal 12)
preview monday.bin item:12=1 => item:12=1: there is no item 12: there are 12
preview monday.bin item:7=-1 => item:7=-1: | (refusal 12)
preview monday.bin item7 => item7: `item7` is no setting
approve monday.bin --save late => late: is no NAME=SAVE
approve monday.bin --save =late.txt => =late.txt: is no NAME=SAVE
approve monday.bin --names names.txt --save a=late.txt --save a=early.txt => a=early.txt: another save has this name
approve monday.bin --save x=two.txt => two.txt: | (refusal 12)
bill monday.bin => --tariff: is due
bill monday.bin --tariff dear.txt => dear.txt: | (refusal 24)
bill monday.bin --tariff flat.txt --save two.txt => two.txt: | (refusal 12)
bill monday.bin --tariff cheap.txt --names names.txt => cheap.txt: line 2: an item has no price
bill monday.bin --tariff tariff.txt --names names.txt --take 0=4 => --take: | (refusal 25)
bill monday.bin --tariff flat.txt --take 0=2 --take 0=1 => 0=1: slot 0 was taken of before
bill monday.bin --tariff tariff.txt --names names.txt --take 20=1 => 20=1: is no slot and number
shopper monday.bin --names names.txt --tariff tariff.txt --money 1000001 --wish 0 => --money: | (refusal 28)
shopper monday.bin --tariff dear.txt --money 9 --wish 0 => dear.txt: | (refusal 24)
shopper monday.bin --tariff flat.txt --money 9 --wish 0 --save two.txt => two.txt: | (refusal 12)
shopper monday.bin --names names.txt --tariff tariff.txt --money 9 --wish 0 20 => --wish: | (refusal 27)
shopper monday.bin --names names.txt --tariff tariff.txt --money 9 --wish 256 => --wish: `256` is no number that fits
shopper monday.bin --names names.txt --tariff tariff.txt --money 9 => --wish: is due
reclaim monday.bin --root 4096 monday.bin => monday.bin: | (refusal 18)
reclaim monday.bin --root monday.bin => reclaim: --root needs N..
sweep monday.bin => sweep: usage: FILE SAVES..
press monday.bin => press: is no command
show monday.bin --colour => show: unknown option --colour
show -c monday.bin => show: unknown option -c
 => no command; `locustkeno --help` lists them
";

fn wrong_questions(week: &Week) {
    week.write("save.txt", "item:toothbrush=1\nflag:nobody=1\n");
    week.write("two.txt", "flag:3=2\n");
    week.write("dear.txt", "others 30001\n");
    week.write("flat.txt", "others 1\n");
    week.write("cheap.txt", "price toothbrush 1\n");
    for (line, words) in cases(QUESTIONS) {
        week.refused(line, &words);
    }
}

/// Monday: the designer takes the stage's empty shop, fills it and presses it.
fn monday(week: &Week) {
    let empty = week.run("export stage.bin").said(0);
    assert!(empty.starts_with("0 - 0\n1 - 0\n"), "{empty}");
    let import = "import stage.bin monday.txt monday.bin --names names.txt";
    let said = week.run(import).said(0);
    assert!(said.contains("slot 4: limit 12 will be 10\n"), "{said}");
}

/// Tuesday: another text over Monday's file, in its place.
fn tuesday(week: &Week) {
    week.write("last.bin", week.read("monday.bin"));
    let import = "import monday.bin tuesday.txt monday.bin --names names.txt";
    week.run(import).said(0);
    let diff = "diff last.bin monday.bin --names names.txt";
    let changed = week.run(diff).said(1);
    assert!(changed.contains("slot 0: limit 3 -> 2\n"), "{changed}");
}

/// Wednesday: a shop that nobody should sign is not pressed.
fn wednesday(week: &Week) {
    let before = week.files();
    let import = "import monday.bin wrong.txt monday.bin --names names.txt";
    let said = week.run(import).said(1);
    let last = "monday.bin was not written: mend wrong.txt, or say --force\n";
    assert!(said.ends_with(last), "{said}");
    assert!(week.files() == before);
}

/// Thursday: the build engineer takes the dead blocks back, and the shop is the same.
fn thursday(week: &Week) {
    week.run("reclaim monday.bin --root 0 small.bin").said(0);
    assert!(week.read("small.bin").len() < week.read("monday.bin").len());
    week.run("diff monday.bin small.bin").said(0);
}

/// Friday: the approver looks and signs.
fn friday(week: &Week) {
    let checked = week.run("check small.bin").said(0);
    assert_eq!(checked, "what is printed is what runs\n");
    let approve = "approve small.bin last.bin --names names.txt --out sheet.html";
    week.run(approve).said(0);
    let page = week.text("sheet.html");
    assert!(page.contains("now requires !flag 9 door_open"), "{page}");
}

#[test]
fn the_week() {
    let week = Week::new("week");
    spoil(&week);
    wrong_stages(&week);
    monday(&week);
    wrong_texts(&week);
    full_disk(&week);
    wrong_questions(&week);
    tuesday(&week);
    wednesday(&week);
    thursday(&week);
    friday(&week);
}
