//! The page to sign: its rows, its tags, what is escaped, and how a real browser lays it out where one is installed.

mod common;

use common::Week;
use std::io::{self, Write};
use std::path::PathBuf;
use std::process::Command;
use std::{env, fs};

/// Elements that have no end.
const VOID: [&str; 2] = ["meta", "col"];

/// Every tag is closed in its order, and no sign stands where it would begin another.
fn balanced(page: &str) {
    let mut open: Vec<&str> = Vec::new();
    let body = page
        .strip_prefix("<!DOCTYPE html>\n")
        .expect("it says what it is");
    for piece in body.split('<').skip(1) {
        let (tag, text) = piece.split_once('>').expect("a tag ends");
        assert!(!text.contains('>'), "{piece}");
        let name = tag.split(' ').next().expect("a tag has a name");
        match name.strip_prefix('/') {
            Some(name) => assert_eq!(open.pop(), Some(name), "{piece}"),
            None if VOID.contains(&name) => {}
            None => open.push(name),
        }
    }
    assert_eq!(open, [""; 0]);
}

/// The page of Tuesday since Monday, under two saves.
fn page(week: &Week) -> String {
    let saves = "--save early=early.txt --save <b>'late'&=late.txt";
    week.run(&format!(
        "approve tuesday.bin monday.bin --names names.txt {saves}"
    ))
    .said(0)
}

#[test]
fn rows() {
    let week = Week::pressed("rows");
    let page = page(&week);
    balanced(&page);
    for row in [
        "<tr><td>0</td><td>7 toothbrush</td><td>2</td><td>!flag 40 met_telly</td><td>changed</td></tr>",
        "<tr><td>2</td><td>1 timer5</td><td>1</td><td></td><td></td></tr>",
        "<tr><td>19</td><td>-</td><td>0</td><td></td><td></td></tr>",
        "<li>slot 0: limit 3 -&gt; 2</li>",
        "<th>early</th><th>&lt;b&gt;&#39;late&#39;&amp;</th>",
        "<tr><td>0</td><td>7 toothbrush</td><td>1</td><td>hidden</td></tr>",
        "<tr><td>6</td><td>11 soap</td><td>hidden</td><td>5</td></tr>",
        "<li>early: item 7 toothbrush = 1, time 2 rate = 200</li>",
        "<p>Nothing was found.</p>",
        "<p>What is printed is what runs.</p>",
        "<th>name</th><th>date</th><th>signature</th>",
    ] {
        assert!(page.contains(row), "{row} is not in {page}");
    }
    assert!(page.contains(&format!(
        "<td>locustkeno {}</td>",
        env!("CARGO_PKG_VERSION")
    )));
    // The image lies behind the 17 bytes of the sheet and the setup number.
    for digested in [
        "cat tuesday.bin",
        "tail -c +19 tuesday.bin",
        "cat monday.bin",
    ] {
        let digest = week.shell(&format!("{digested} | sha256sum")).said(0);
        let digest = digest.split(' ').next().expect("a digest is printed");
        assert!(
            page.contains(&format!("<td>{digest}</td>")),
            "{digested}: {digest}"
        );
    }
}

/// Nothing is loaded from elsewhere, and there is no colour that paper without colour would lose.
#[test]
fn alone_and_black_on_white() {
    let page = page(&Week::pressed("alone"));
    for word in [
        "http", "src=", "href", "url(", "@import", "<script", "<link", "<img",
    ] {
        assert!(!page.contains(word), "{word}");
    }
    let style = page
        .split("<style>")
        .nth(1)
        .and_then(|rest| rest.split("</style>").next());
    let style = style.expect("there is a style");
    for colour in style.split('#').skip(1) {
        assert!(
            colour.starts_with("000") || colour.starts_with("fff"),
            "#{colour}"
        );
    }
    assert!(!style.contains("rgb") && !style.contains("hsl"));
}

#[test]
fn what_should_not_be_signed() {
    let week = Week::pressed("unsigned");
    week.write("far-names.txt", "flag 4000 far_away\n");
    let empty: String = (1..20).map(|i| format!("{i} - 0\n")).collect();
    week.write("far.txt", format!("0 7 3 flag:far_away\n{empty}"));
    week.run("import stage.bin wrong.txt out.bin --names names.txt --force")
        .said(0);
    let page = week.run("approve out.bin").said(1);
    balanced(&page);
    // At the top and where it would be signed.
    assert_eq!(
        page.matches("<p class=\"no\">Do not sign").count(),
        2,
        "{page}"
    );
    assert!(page.contains("<li>the script is not what compiling this table gives"));
    assert!(page.contains("<p>No last pressing was given.</p>"));
    assert!(page.contains("<p>No save was given.</p>"));
    // What a finding is about has its name there.
    week.run("import stage.bin far.txt far.bin --names far-names.txt --force")
        .said(0);
    let page = week.run("approve far.bin --names far-names.txt").said(1);
    let due =
        "<li>slot 0: flag 4000 is in no save: every run stops there (flag 4000 is far_away)</li>";
    assert!(page.contains(due), "{page}");
    // A flag that no save has stops every run; the page is made and says so.
    let text = week.text("monday.txt").replace("flag:night", "flag:20480");
    week.write("typo.txt", text);
    week.run("import stage.bin typo.txt out.bin --names names.txt --force")
        .said(0);
    let page = week
        .run("approve out.bin --save early=early.txt --names names.txt")
        .said(1);
    balanced(&page);
    assert!(page.contains("<li>slot 3: flag 20480 is in no save: every run stops there</li>"));
    assert!(
        page.contains("<tr><td>0</td><td>7 toothbrush</td><td>refused 23</td></tr>"),
        "{page}"
    );
}

/// The fullest page: twenty slots of fourteen requirements with names that are long and have no blanks, and nine saves.
fn fullest(week: &Week) -> String {
    let long = |i: usize| format!("n{i:02}{}", "abcdefghij".repeat(6));
    let mut names = String::new();
    (0..12).for_each(|i| names += &format!("item {i} {}\n", long(i)));
    (0..14).for_each(|i| names += &format!("flag {} {}\n", 2_000 + i, long(i)));
    week.write("long.txt", names);
    let flags: Vec<String> = (2_000..2_014).map(|flag| format!("F{flag}")).collect();
    let line = |i: usize| format!("{i} {} 10 {}\n", i % 12, flags.join(" "));
    week.write("full.txt", (0..20).map(line).collect::<String>());
    week.run("import stage.bin full.txt full.bin").said(0);
    let saves = (0..9).map(|i| format!("--save {}=early.txt", long(i)));
    let saves = saves.collect::<Vec<_>>().join(" ");
    week.changed(
        "early.txt",
        "item:toothbrush=1\ntime:rate=200",
        "item:7=1",
        "early.txt",
    );
    let line = format!("approve full.bin tuesday.bin --names long.txt {saves}");
    let page = week.run(&line).said(0);
    balanced(&page);
    page
}

#[test]
fn fullest_page() {
    let page = fullest(&Week::pressed("fullest"));
    assert_eq!(page.matches("<td>changed</td>").count(), 20);
    // Nine saves are three tables of at most four.
    assert_eq!(page.matches("<th>slot</th>").count(), 1 + 3);
}

/// The browser that `CHROMIUM` names, or else one on the path.
fn browser() -> Option<PathBuf> {
    if let Some(named) = env::var_os("CHROMIUM") {
        return Some(named.into());
    }
    let paths = env::var_os("PATH").unwrap_or_default();
    let folders: Vec<PathBuf> = env::split_paths(&paths).collect();
    let names = ["chromium", "chromium-browser", "google-chrome"];
    let all = names
        .iter()
        .flat_map(|name| folders.iter().map(move |folder| folder.join(name)));
    all.into_iter().find(|path| path.is_file())
}

/// Asked inside the page, which is as wide as the print of A4 between its margins; letter is wider. It counts rows, what juts out
/// on the right, rows higher than a page of letter (249 mm), what is neither black, white nor grey, and digests over two lines.
const QUESTION: &str = "<script>
{
  const all = [...document.querySelectorAll('body, body *')].filter(e => e.tagName !== 'SCRIPT');
  const edge = document.body.getBoundingClientRect().right + 1;
  const out = all.filter(e => e.getBoundingClientRect().right > edge || e.scrollWidth > e.clientWidth + 1 && e.clientWidth > 0);
  const rows = [...document.querySelectorAll('tbody tr')];
  const high = rows.filter(e => e.getBoundingClientRect().height > 941);
  const grey = c => { const n = c.match(/[0-9.]+/g); return n[0] === n[1] && n[1] === n[2]; };
  const styles = all.map(e => getComputedStyle(e));
  const gaudy = styles.filter(s => ![s.color, s.backgroundColor, s.borderTopColor].every(grey));
  const lines = e => { const r = document.createRange(); r.selectNodeContents(e); return r.getClientRects().length; };
  const torn = [...document.querySelectorAll('td')].filter(e => /^[0-9a-f]{64}$/.test(e.textContent) && lines(e) > 1);
  const width = Math.round(document.body.getBoundingClientRect().width);
  document.title = `rows ${rows.length} out ${out.length} high ${high.length} gaudy ${gaudy.length} torn ${torn.length} width ${width}`;
}
</script></body>";

/// Runs the browser without a window, and answers what it prints.
fn browse(browser: &PathBuf, week: &Week, words: &[&str]) -> String {
    let profile = format!("--user-data-dir={}", week.path("profile").display());
    let mut command = Command::new(browser);
    command.args([
        "--headless",
        "--disable-gpu",
        "--no-sandbox",
        "--window-size=1200,1000",
        &profile,
    ]);
    let output = command.args(words).output().expect("the browser runs");
    assert!(
        output.status.success(),
        "{}",
        String::from_utf8_lossy(&output.stderr)
    );
    String::from_utf8_lossy(&output.stdout).into_owned()
}

/// How many rows the tables of a page have.
fn rows_of(page: &str) -> usize {
    let bodies = page.split("<tbody>").skip(1);
    let bodies = bodies.map(|rest| rest.split("</tbody>").next().expect("a body ends"));
    bodies.map(|body| body.matches("<tr>").count()).sum()
}

/// The browser lays the page out as it should, and prints it.
fn looked_at(browser: &PathBuf, week: &Week, name: &str, page: &str) {
    let rows = rows_of(page);
    let due = format!("<title>rows {rows} out 0 high 0 gaudy 0 torn 0 width 680</title>");
    let file = format!("{name}.html");
    let url = format!("file://{}", week.path(&file).display());
    week.write(&file, page.replace("</body>", QUESTION));
    let seen = browse(browser, week, &["--dump-dom", &url]);
    let title = seen
        .split("<title>")
        .nth(1)
        .and_then(|rest| rest.lines().next());
    assert!(seen.contains(&due), "{name}: {due} is due, not {title:?}");
    week.write(&file, page);
    let pdf = week.path(&format!("{name}.pdf"));
    browse(
        browser,
        week,
        &[&format!("--print-to-pdf={}", pdf.display()), &url],
    );
    let printed = fs::read(&pdf).expect("it was printed");
    assert!(printed.starts_with(b"%PDF"), "{name}");
}

#[test]
fn in_a_browser() {
    let Some(browser) = browser() else {
        // Past the test's own capture, so that it is seen.
        let said = "skipped: the page was not looked at in a browser; CHROMIUM names one\n";
        let told = io::stderr().write_all(said.as_bytes());
        return told.expect("standard error is there");
    };
    let week = Week::pressed("browser");
    looked_at(&browser, &week, "tuesday", &page(&week));
    looked_at(&browser, &week, "full", &fullest(&week));
}
