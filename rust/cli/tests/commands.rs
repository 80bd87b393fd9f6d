//! What each command says.

mod common;

use common::Week;

const NAMES: &str = "--names names.txt";

/// The lines of a text from one place on.
fn lines(text: &str, from: usize, many: usize) -> Vec<&str> {
    text.lines().skip(from).take(many).collect()
}

#[test]
fn show() {
    let week = Week::pressed("show");
    let said = week.run(&format!("show tuesday.bin {NAMES}")).said(0);
    let head = [
        "slot  item          limit  requirements",
        "   0  7 toothbrush      2  !flag 40 met_telly",
        "   1  4 squirter        1  item 7 toothbrush",
    ];
    assert_eq!(lines(&said, 0, 3), head);
    let tail = [
        "  19  -                 0",
        "",
        "setup block 1",
        "",
        "           used   limit",
        "blocks       94   4,096",
        "commands    177  16,384",
        "nodes       447  32,768",
        "bytes     1,656  65,536",
        "presses left, about: 71 for the disc, 8 for the demo",
    ];
    assert_eq!(lines(&said, 20, 20), tail);
    let plain = week.run("show tuesday.bin").said(0);
    assert_eq!(lines(&plain, 1, 1), ["   0  7         2  !flag 40"]);
}

/// What is said to be left for the demo is what can be pressed, and so for the disc but for the growing numbers of blocks.
#[test]
fn presses_left() {
    let week = Week::new("presses");
    week.write("now.bin", week.read("stage.bin"));
    let press = |loader: &str| {
        week.run(&format!(
            "import now.bin tuesday.txt now.bin {NAMES} --loader {loader}"
        ))
    };
    let first = press("demo").said(0);
    assert!(
        first.ends_with("75 for the disc, 9 for the demo\n"),
        "{first}"
    );
    let more = (0..).take_while(|_| press("demo").status == 0).count();
    assert_eq!(more, 9);
    assert!(press("demo").err.ends_with("(refusal 19)\n"));
    let more = 9 + (0..).take_while(|_| press("disc").status == 0).count();
    assert!((65..=75).contains(&more), "{more}");
    let last = press("disc").err;
    let why = "now.bin: the slice is too short for the image (refusal 16); a stage has at most 65,536 bytes, reclaim first\n";
    assert_eq!(last, format!("locustkeno: {why}"));
    assert!(week.read("now.bin").len() <= 65_536);
    let full = week.run("show now.bin").said(0);
    assert!(full.ends_with("0 for the disc, 0 for the demo\n"), "{full}");
    // What was taken back is there again.
    week.run("reclaim now.bin now.bin").said(0);
    let anew = week.run("show now.bin").said(0);
    assert!(
        anew.ends_with("75 for the disc, 9 for the demo\n"),
        "{anew}"
    );
}

#[test]
fn export_is_what_slots_prints() {
    let week = Week::samples("slots");
    for sample in ["shop", "worked"] {
        let printed = week.run(&format!("export {sample}.bin")).said(0);
        assert_eq!(printed, week.text(&format!("{sample}.txt")));
    }
}

#[test]
fn export_and_back() {
    let week = Week::pressed("export");
    for (names, text) in [("", "numbers.txt"), (NAMES, "named.txt")] {
        week.run(&format!("export tuesday.bin {names} --out {text}"))
            .said(0);
        let back = format!("import stage.bin {text} back.bin {names}");
        week.run(&back).said(0);
        week.run("diff tuesday.bin back.bin").said(0);
        let again = week.run(&format!("export back.bin {names}")).said(0);
        assert_eq!(again, week.text(text));
    }
    let named = week.text("named.txt");
    assert!(
        named.contains("\n0 toothbrush 2 !flag:met_telly\n"),
        "{named}"
    );
    // From standard input, and with the line ends of another system.
    let piped =
        "sed 's/$/\\r/' named.txt | locustkeno import stage.bin - back.bin --names names.txt";
    week.shell(piped).said(0);
    assert_eq!(
        week.shell("locustkeno diff tuesday.bin - < back.bin")
            .status,
        0
    );
}

#[test]
fn import_says_what_is_lost() {
    let week = Week::new("import");
    let text = week.text("monday.txt");
    let text = text
        .replace("\n6 - 0", "\n6 - 5 flag:night")
        .replace("\n7 - 0", "\n7 soap 1 !item:soap flag:9 flag:9");
    week.write("lossy.txt", text);
    let said = week
        .run(&format!("import stage.bin lossy.txt out.bin {NAMES}"))
        .said(0);
    let due = [
        "slot 4: limit 12 will be 10",
        "slot 6: no item, so its requirements are lost: 1",
        "slot 7: entries given before: 1",
        "slot 6: given no item, limit 5, if flag 12 night; reads back as empty",
        "slot 7: given 11 soap, limit 1, if !item 11 soap, flag 9 door_open, flag 9 door_open; reads back as 11 soap, limit 1, if flag 9 door_open",
    ];
    assert_eq!(lines(&said, 0, 5), due);
    assert!(
        lines(&said, 5, 1)[0].starts_with("out.bin: pressed at block 1, "),
        "{said}"
    );
    // What was pressed is what is printed, also where the text said more.
    assert_eq!(
        week.run("check out.bin").said(0),
        "what is printed is what runs\n"
    );
}

#[test]
fn import_of_what_differs() {
    let week = Week::new("differs");
    let import = format!("import stage.bin wrong.txt out.bin {NAMES}");
    let said = week.run(&import).said(1);
    let due = "slot 0: flag 12 and !flag 12 contradict: never listed, and the printed slot will not show it (flag 12 is night)";
    assert_eq!(lines(&said, 0, 1), [due]);
    assert!(!week.path("out.bin").exists());
    week.run(&format!("{import} --force")).said(0);
    let said = week.run("check out.bin").said(1);
    assert!(
        said.starts_with("the script is not what compiling this table gives"),
        "{said}"
    );
    // Printed it is listed, run it is hidden.
    assert_eq!(week.run("preview out.bin").line(1), "   0  7           3");
    assert_eq!(week.run("run out.bin").line(1), "   0  hidden      0");
}

#[test]
fn diff() {
    let week = Week::pressed("diff");
    let said = week
        .run(&format!("diff monday.bin tuesday.bin {NAMES}"))
        .said(1);
    let due = "slot 0: limit 3 -> 2\n\
        slot 1: no longer requires flag 9 door_open\n\
        slot 4: item 8 spoon -> 5 mug\n\
        slot 4: now requires !flag 9 door_open\n\
        slot 6: item - -> 11 soap\n\
        slot 6: limit 0 -> 5\n\
        slot 6: now requires flag 12 night\n\
        slot 6: now requires flag 40 met_telly\n";
    assert_eq!(said, due);
    let same = week.run("diff monday.bin monday.bin").said(0);
    assert_eq!(same, "no slot changed; the files are the same\n");
    week.run(&format!("import tuesday.bin monday.txt again.bin {NAMES}"))
        .said(0);
    let blocks = week.run("diff monday.bin again.bin").said(0);
    assert_eq!(blocks, "no slot changed; the files have other blocks\n");
    // Item 10 gets the attachment of item 9 too.
    let mut sheet = week.read("monday.bin");
    sheet[12] = 3;
    week.write("sheet.bin", sheet);
    let said = week.run("diff monday.bin sheet.bin").said(1);
    assert_eq!(
        said,
        "the sheet changed: numbers may stand for other things\n"
    );
}

/// The same slots and another run: a script that was forced is no other pressing of the text that it prints.
#[test]
fn diff_of_what_runs_otherwise() {
    let week = Week::pressed("forced");
    week.run(&format!(
        "import stage.bin wrong.txt forced.bin {NAMES} --force"
    ))
    .said(0);
    week.run("export forced.bin --out printed.txt").said(0);
    week.run("import stage.bin printed.txt plain.bin").said(0);
    let due = "the blocks changed and are not the slots compiled: what runs may have changed\n";
    assert_eq!(week.run("diff plain.bin forced.bin").said(1), due);
    assert_eq!(week.run("diff forced.bin plain.bin").said(1), due);
    week.run("approve forced.bin plain.bin --out sheet.html")
        .said(1);
    assert!(week.text("sheet.html").contains(due.trim_end()));
    // The blocks that are reached are the same ones.
    week.run("reclaim forced.bin small.bin").said(0);
    let same = "no slot changed; the files have other blocks\n";
    assert_eq!(week.run("diff forced.bin small.bin").said(0), same);
}

#[test]
fn check() {
    let week = Week::pressed("check");
    let fine = "what is printed is what runs\n";
    assert_eq!(week.run("check monday.bin").said(0), fine);
    let text = format!("check monday.bin monday.txt {NAMES}");
    let due = format!("slot 4: limit 12 will be 10\n{fine}");
    assert_eq!(week.run(&text).said(0), due);
    let wrong = format!("check monday.bin wrong.txt {NAMES}");
    let said = week.run(&wrong).said(1);
    assert!(said.contains("slot 1: atc 0 is required and is what it sells"));
    let no = "do not sign: what is printed may not be what runs\n";
    assert!(said.ends_with(no), "{said}");
    week.refused("check monday.bin --names nowhere.txt", &["nowhere.txt: "]);
}

#[test]
fn check_of_samples() {
    let week = Week::samples("checked");
    let said = week.run("check shop.bin").said(1);
    let due = "slot 2: flag -5 is in no save: every run stops there";
    assert_eq!(lines(&said, 0, 1), [due]);
    let said = week.run("check worked.bin").said(1);
    assert!(
        said.starts_with("the script is not what compiling"),
        "{said}"
    );
}

#[test]
fn preview_and_run_agree() {
    let week = Week::pressed("preview");
    let late = format!("tuesday.bin --save late.txt {NAMES} item:toothbrush=1");
    let seen = week.run(&format!("preview {late}")).said(0);
    let due = [
        "slot  item        count",
        "   0  hidden          0",
        "   1  4 squirter      1",
        "   2  1 timer5        1",
        "   3  2 timer10       0",
    ];
    assert_eq!(lines(&seen, 0, 5), due);
    assert_eq!(lines(&seen, 21, 1), ["variable 0 ends as 5"]);
    let left = week.run(&format!("run {late}")).said(0);
    assert_eq!(lines(&seen, 0, 21), lines(&left, 0, 21));
    let due = ["variable 0 ends as 5; 32 blocks entered"];
    assert_eq!(lines(&left, 21, 1), due);
}

#[test]
fn runs_that_are_refused() {
    let week = Week::samples("stopped");
    let short = week.run("run worked.bin --budget 0");
    let due = "variable 0 ends as 0; 0 blocks entered";
    assert_eq!((short.status, short.line(21)), (2, due));
    let why = "locustkeno: worked.bin: the run's budget is spent (refusal 15)\n";
    assert_eq!(short.err, why);
    // The first slot is written before the flag outside the save is met.
    let stopped = week.run("run shop.bin");
    let due = (2, "   0  7           3", "   2  hidden      0");
    assert_eq!((stopped.status, stopped.line(1), stopped.line(3)), due);
    assert!(stopped.err.ends_with("(refusal 23)\n"), "{}", stopped.err);
    week.refused("preview shop.bin", &["shop.bin: ", "(refusal 23)"]);
}

#[test]
fn settings() {
    let week = Week::pressed("settings");
    let said = week.run(&format!("settings tuesday.bin {NAMES}")).said(0);
    let due = [
        "slot  item          listed  settings",
        "   0  7 toothbrush       1         2",
        "   1  4 squirter         3         4",
        "   2  1 timer5           4         4  always",
        "   3  2 timer10          7         8",
    ];
    assert_eq!(lines(&said, 0, 5), due);
    assert_eq!(
        lines(&said, 20, 1),
        ["  19  -                  0         1  empty"]
    );
}

#[test]
fn sweep() {
    let week = Week::pressed("sweep");
    let said = week
        .run(&format!("sweep tuesday.bin saves.txt {NAMES}"))
        .said(1);
    let due = "slot  item          listed  on sale\n   \
        0  7 toothbrush       3        3\n   \
        1  4 squirter         1        1\n   \
        2  1 timer5           3        1\n   \
        3  2 timer10          1        0\n   \
        4  5 mug              3        3\n   \
        5  9 radar            3        3\n   \
        6  11 soap            0        0\n\
        3 saves\n\
        never shown: slot 6\n";
    assert_eq!(said, due);
    let all = week
        .run(&format!("sweep tuesday.bin saves.txt late.txt {NAMES}"))
        .said(0);
    assert!(all.ends_with("4 saves\n"), "{all}");
    week.write("bad.txt", "save good\nsave bad\nflag:3=2\n");
    let ran = week.run(&format!("sweep tuesday.bin saves.txt bad.txt {NAMES}"));
    assert_eq!((ran.status, ran.out.contains("5 saves\n")), (2, true));
    let why = "locustkeno: tuesday.bin: refused runs: 1, first that of bad: the save has a wrong length or value";
    assert!(ran.err.starts_with(why), "{}", ran.err);
    assert!(ran.err.ends_with("(refusal 12)\n"), "{}", ran.err);
}

/// As many saves as take several walks, each of which is also run by itself.
#[test]
fn sweep_of_many() {
    let week = Week::pressed("many");
    let mut text = String::new();
    for i in 0..150 {
        let (held, met) = (i % 5, i % 3 == 0);
        text += &format!(
            "save s{i}\nitem:toothbrush={held} flag:met_telly={}\n",
            u8::from(met)
        );
    }
    week.write("many.txt", text);
    let said = week
        .run(&format!("sweep tuesday.bin many.txt {NAMES}"))
        .said(1);
    assert!(said.contains("\n150 saves\n"), "{said}");
    // Of the 100 that did not meet telly, two in five hold 0 or 1 of the limit of 2.
    assert_eq!(lines(&said, 1, 1), ["   0  7 toothbrush     100       40"]);
    let alone = |held: usize| week.run(&format!("run tuesday.bin item:7={held}")).said(0);
    let sold = (0..5).map(|held| lines(&alone(held), 1, 1)[0].to_owned());
    let due = [2, 1, 0, 0, 0].map(|count| format!("   0  7           {count}"));
    assert_eq!(sold.collect::<Vec<_>>(), due);
}

#[test]
fn bill() {
    let week = Week::pressed("bill");
    let line = format!("bill monday.bin --tariff tariff.txt {NAMES}");
    let said = week.run(&format!("{line} --take 0=2 --take 4=3")).said(0);
    let due = [
        "1 timer5         2       0      0",
        "7 toothbrush     0       2    450",
        "8 spoon          4       3    108",
        "9 radar          5       0      0",
        "total 558",
    ];
    assert_eq!(lines(&said, 17, 5), due);
    // All that the run left: three, ten and one.
    let all = week.run(&line).said(0);
    assert_eq!(lines(&all, 21, 1), ["total 1125"]);
    let held = week.run(&format!("{line} item:toothbrush=2")).said(0);
    assert_eq!(lines(&held, 21, 1), ["total 675"]);
}

#[test]
fn shopper() {
    let week = Week::pressed("shopper");
    let line = format!("shopper monday.bin --tariff tariff.txt {NAMES} --money 500");
    let said = week.run(&format!("{line} --wish 0 0 0 4 1")).said(0);
    let due = "1. slot 0: bought 7 toothbrush for 225\n\
        2. slot 0: bought 7 toothbrush for 225\n\
        3. slot 0: 7 toothbrush is too dear\n\
        4. slot 4: bought 8 spoon for 36\n\
        5. slot 1: sold out or hidden\n\
        money 14 of 500\n";
    assert_eq!(said, due);
}

#[test]
fn shopper_that_is_stopped() {
    let week = Week::samples("shopping");
    week.write("flat.txt", "others 1\n");
    let ran = week.run("shopper shop.bin --tariff flat.txt --money 5 --wish 0 1");
    assert_eq!((ran.status, ran.line(1)), (2, "money 5 of 5"));
    assert!(ran.err.ends_with("(refusal 23)\n"), "{}", ran.err);
}

#[test]
fn reclaim() {
    let week = Week::pressed("reclaim");
    let said = week.run("reclaim tuesday.bin small.bin").said(0);
    let due = "setup block 1 is now 0\nsmall.bin: 50 of 94 blocks kept, 885 bytes\n";
    assert_eq!(said, due);
    assert_eq!(
        lines(&week.run("show small.bin").said(0), 22, 1),
        ["setup block 0"]
    );
    week.run("diff tuesday.bin small.bin").said(0);
    week.run("check small.bin").said(0);
    let said = week
        .run("reclaim tuesday.bin --root 0 93 small.bin")
        .said(0);
    let due = "setup block 1 is now 1\nblock 0 is now 0\nblock 93 is now 50\n";
    assert!(said.starts_with(due), "{said}");
    // A file in its own place, and a second time nothing is left to take.
    week.run("reclaim tuesday.bin tuesday.bin").said(0);
    let again = week.run("reclaim tuesday.bin tuesday.bin").said(0);
    assert!(again.contains("50 of 50 blocks kept"), "{again}");
}

#[test]
fn help_and_version() {
    let week = Week::new("help");
    let all = week.run("--help").said(0);
    let names = all.lines().filter_map(|line| line.strip_prefix("  "));
    let names: Vec<&str> = names.filter_map(|line| line.split(' ').next()).collect();
    assert_eq!(names.len(), 13, "{all}");
    for name in names {
        let help = week.run(&format!("{name} --help")).said(0);
        assert!(
            help.starts_with(&format!("usage: locustkeno {name} ")),
            "{help}"
        );
        assert_eq!(week.run(&format!("help {name}")).said(0), help);
        let widest = help.lines().map(|line| line.chars().count()).max();
        assert!(widest <= Some(130), "{help}");
    }
    let version = format!("locustkeno {}\n", env!("CARGO_PKG_VERSION"));
    assert_eq!(week.run("--version").said(0), version);
    // A reader that goes away is no error.
    assert_eq!(
        week.shell("locustkeno --help | head -n 1").said(0),
        "usage: locustkeno COMMAND ..\n"
    );
}

/// The rights of the file that is replaced are kept, a link stays one, and its target is what is written.
#[cfg(unix)]
#[test]
fn what_is_replaced() {
    use std::fs;
    use std::os::unix::fs::{PermissionsExt, symlink};
    let week = Week::pressed("replaced");
    fs::set_permissions(week.path("monday.bin"), fs::Permissions::from_mode(0o640)).unwrap();
    symlink("monday.bin", week.path("link.bin")).unwrap();
    week.run(&format!("import tuesday.bin tuesday.txt link.bin {NAMES}"))
        .said(0);
    assert!(
        fs::symlink_metadata(week.path("link.bin"))
            .unwrap()
            .is_symlink()
    );
    assert_eq!(
        fs::metadata(week.path("monday.bin"))
            .unwrap()
            .permissions()
            .mode()
            & 0o777,
        0o640
    );
    week.run("diff monday.bin tuesday.bin").said(0);
}

/// A file that is only read is never written over: the text, the names, the stage that is exported or approved, its last pressing, a save.
#[test]
fn what_is_read_stays() {
    let week = Week::pressed("stays");
    for (line, out) in [
        ("import stage.bin monday.txt monday.txt", "monday.txt"),
        ("import stage.bin monday.txt names.txt", "names.txt"),
        ("import stage.bin monday.txt ./monday.txt", "./monday.txt"),
        ("export monday.bin --out monday.bin", "monday.bin"),
        ("export monday.bin --out names.txt", "names.txt"),
        ("approve monday.bin --out monday.bin", "monday.bin"),
        (
            "approve tuesday.bin monday.bin --out monday.bin",
            "monday.bin",
        ),
        (
            "approve tuesday.bin --save late=late.txt --out late.txt",
            "late.txt",
        ),
    ] {
        let why = format!("{out}: is read by this command and would be lost");
        week.refused(&format!("{line} {NAMES}"), &[&why]);
    }
    // An old sheet may be replaced, and so may a stage by its next pressing.
    week.run("approve tuesday.bin --out wrong.txt").said(0);
    week.run(&format!("import monday.bin tuesday.txt monday.bin {NAMES}"))
        .said(0);
}

/// A file that nobody may write stays, and so does a link that leads nowhere.
#[cfg(unix)]
#[test]
fn what_is_not_replaced() {
    use std::fs;
    use std::os::unix::fs::{PermissionsExt, symlink};
    let week = Week::pressed("kept");
    fs::set_permissions(week.path("monday.bin"), fs::Permissions::from_mode(0o444)).unwrap();
    symlink("nowhere.bin", week.path("link.bin")).unwrap();
    symlink("round.bin", week.path("round.bin")).unwrap();
    for (out, why) in [
        ("monday.bin", "monday.bin: is read-only"),
        ("link.bin", "link.bin: is a link that leads nowhere"),
        ("round.bin", "round.bin: is a link that leads nowhere"),
    ] {
        week.refused(
            &format!("import tuesday.bin tuesday.txt {out} {NAMES}"),
            &[why],
        );
        week.refused(&format!("reclaim tuesday.bin {out}"), &[why]);
        week.refused(&format!("export tuesday.bin --out {out}"), &[why]);
    }
    // The group may write it and the owner may not; who may do all is not stopped by that.
    fs::set_permissions(week.path("monday.bin"), fs::Permissions::from_mode(0o464)).unwrap();
    let open = fs::OpenOptions::new()
        .write(true)
        .open(week.path("monday.bin"));
    if open.is_err() {
        week.refused(
            "export tuesday.bin --out monday.bin",
            &["monday.bin: Permission denied"],
        );
    }
    for link in ["link.bin", "round.bin"] {
        let is = fs::symlink_metadata(week.path(link)).unwrap();
        assert!(is.is_symlink(), "{link}");
    }
}

/// Standard input is read once, and is nothing to write to.
#[test]
fn standard_input() {
    let week = Week::pressed("stdin");
    for line in [
        "locustkeno diff - - < monday.bin",
        "locustkeno import - - out.bin < stage.bin",
        "locustkeno show - --names - < names.txt",
    ] {
        week.refused(line, &["-: standard input is read only once"]);
    }
    for line in [
        "import stage.bin tuesday.txt - --names names.txt",
        "reclaim tuesday.bin -",
        "export tuesday.bin --out -",
    ] {
        week.refused(line, &["-: is standard input, name a file to write"]);
    }
}

/// The longest name that a file may have is one that can be written.
#[test]
fn long_names() {
    let week = Week::pressed("long");
    let out = "a".repeat(255);
    week.run(&format!("export monday.bin --out {out}")).said(0);
    assert_eq!(week.text(&out), week.run("export monday.bin").said(0));
    let long = "a".repeat(256);
    week.refused(
        &format!("export monday.bin --out {long}"),
        &["File name too long"],
    );
}

/// Whatever a file or a name has in it, what is wrong is told in one line that can be read.
#[test]
fn failures_are_lines() {
    let week = Week::pressed("lines");
    week.write("escape.txt", "0 \u{1b}[2Jcomb 3\n");
    week.refused(
        "check stage.bin escape.txt",
        &["escape.txt: line 1: there is no item with the name `\\u{1b}[2Jcomb`"],
    );
    week.write("long.txt", format!("0 {} 3\n", "comb".repeat(500_000)));
    let long = week.run("check stage.bin long.txt");
    assert_eq!((long.status, long.out.as_str()), (2, ""));
    let head = "locustkeno: long.txt: line 1: there is no item with the name `comb";
    assert!(
        long.err.starts_with(head) && long.err.len() < 700,
        "{}",
        long.err
    );
    let broken = "locustkeno show 'two\nlines.bin' ; exit $?";
    week.refused(broken, &["two\\u{a}lines.bin: No such file"]);
}

/// The mark with which some editors begin a text is no part of it.
#[test]
fn marked_texts() {
    let week = Week::pressed("marked");
    for name in ["monday.txt", "names.txt"] {
        week.write(
            &format!("marked-{name}"),
            format!("\u{FEFF}{}", week.text(name)),
        );
    }
    week.run("import stage.bin marked-monday.txt back.bin --names marked-names.txt")
        .said(0);
    assert_eq!(week.read("back.bin"), week.read("monday.bin"));
}

/// A short text may have very many saves: they are run as they are read, in the memory of a few, and the last ones of a walk are not lost.
#[cfg(target_os = "linux")]
#[test]
fn sweep_in_little_memory() {
    let week = Week::pressed("little");
    let saves = |many: usize| "save s\nflag:night=1\n".repeat(many);
    for (many, told) in [
        (1, "\n1 save\n"),
        (64, "\n64 saves\n"),
        (65, "\n65 saves\n"),
        (40_000, "\n40,000 saves\n"),
    ] {
        week.write("many.txt", saves(many));
        let line = format!("ulimit -v 100000; locustkeno sweep tuesday.bin many.txt {NAMES} 2>&1");
        let ran = week.shell(&line);
        assert_eq!((ran.status, ran.err.as_str()), (1, ""), "{}", ran.out);
        assert!(ran.out.contains(told), "{}", ran.out);
        // Slot 0 is listed under each of them.
        let listed = ran.line(
            ran.out
                .lines()
                .position(|line| line.contains("toothbrush"))
                .unwrap(),
        );
        let listed = listed
            .split_whitespace()
            .nth(3)
            .map(|count| count.replace(',', ""));
        assert_eq!(listed, Some(many.to_string()), "{}", ran.out);
    }
    let line = format!("ulimit -v 100000; locustkeno preview tuesday.bin --save many.txt {NAMES}");
    week.refused(&line, &["many.txt: has 40000 saves, one is due"]);
}

/// A part that another run left is told by its name, and is left alone.
#[test]
fn a_part_that_is_there() {
    let week = Week::pressed("part");
    let line = "echo mine > .out.txt.$$.part; exec locustkeno export monday.bin --out out.txt";
    let ran = week.shell(line);
    assert_eq!((ran.status, ran.out.as_str()), (2, ""));
    let (file, why) = ran.err.split_once(": .out.txt.").unwrap();
    assert_eq!(file, "locustkeno: out.txt");
    assert!(
        why.ends_with(".part, where it is to be filled, is there already\n"),
        "{why}"
    );
    assert!(!week.path("out.txt").exists());
    let files = week.files();
    assert!(files.values().any(|bytes| bytes == b"mine\n"));
}
