//! A short comparison, so that a test run notices what a long one would.

use oracle::calls;

#[test]
fn no_difference() {
    let tally = calls::on_large_stack(|| compare::all(1, 400, 2, false)).expect("nothing panics");
    assert_eq!(tally.differences, 0, "{}", tally.report());
    assert!(tally.total("read") > 400 && tally.total("run") > 1_000);
    assert!(tally.total("recounted") > 200);
    assert!(tally.total("reclaim") > 800 && tally.total("reclaim of a broken record") > 100);
    assert!(tally.total("edit") > 500 && tally.total("show") > 1_000);
    assert!(tally.total("settings") == 400 && tally.total("run of a setting") > 2_000);
    assert!(tally.total("run after a reclaim") > 4_000 && tally.total("block of the start") > 400);
    assert!(tally.total("bill") > 300 && tally.total("bill of all that a run left") > 300);
    assert!(tally.total("one more held") > 400 && tally.total("compiled again") > 400);
}
