//! Request #102: an old case becomes a set of one and goes back, and each reading
//! of the request that an answer can tell.

use super::notation::{case, list, old_case, set_case};
use super::LIMIT;
use reference::*;

/// E1 to E9, E8 twice: outline, first selection, second selection.
const EXAMPLES: [[&str; 3]; 10] = [
    ["r(a(b,c))", "r^(a(b),a(c))", "r^(a(b,c))"],
    ["r(a(b,!c))", "r^(a(b),a(c))", "r^(a(b,c))"],
    ["r(a,b)", "r(a^)", "r(a^,b)"],
    ["r(a,!b)", "r(a^)", "r(a^,b)"],
    ["r(a(b))", "r//b^", "r(a(b^))"],
    ["r(a(b))", "r//0^", "r(0^)"],
    ["r(a(b))", "r(0^)", "r//0^"],
    ["r", "r^", "r^"],
    ["r", "r^", "a^"],
    ["r", "a^", "r^"],
];

type Move = fn(&[u8], &mut [u8]) -> CountAnswer;

/// What a call writes to the front of a buffer; the rest of it is as it was.
fn moved(call: Move, case: &[u8]) -> Vec<u8> {
    let mut answer = [0xAA; 8_192];
    let got = call(case, &mut answer);
    assert_eq!(got.refused, 0);
    let (written, rest) = answer.split_at(got.count as usize);
    assert!(rest.iter().all(|&byte| byte == 0xAA));
    written.to_vec()
}

/// The refusal, with nothing altered and the count 0.
fn refused(call: Move, case: &[u8]) -> u64 {
    let mut answer = [0xAA; 8_192];
    let got = call(case, &mut answer);
    assert_eq!((got.count, answer), (0, [0xAA; 8_192]));
    got.refused
}

#[test]
fn the_examples_there_and_back() {
    for [outline, first, second] in EXAMPLES {
        let old = old_case(outline, first, second);
        let new = case(outline, first, second);
        assert_eq!(moved(upgrade, &old), new);
        assert_eq!(moved(downgrade, &new), old);
        assert_eq!(verdict_refusal(&new, LIMIT, 0, &[0; CALLERS], 8_192), 0);
    }
}

#[test]
fn e6_has_56_bytes_and_66() {
    let [outline, first, second] = EXAMPLES[5];
    let old = old_case(outline, first, second);
    assert_eq!(old.len(), 56);
    let new = moved(upgrade, &old);
    assert_eq!(new.len(), 66);
    // A figure of 0 after each selection record, and between the two selections the
    // set's count, a 1.
    let zero = [0, 0];
    let wanted = [
        &old[..30],
        &zero,
        &old[30..38],
        &zero,
        &[1, 0],
        &old[38..48],
        &zero,
        &old[48..],
        &zero,
    ];
    assert_eq!(new, wanted.concat());
}

#[test]
fn question_2_comes_first() {
    let old = old_case("r", "r^", "r^");
    let new = case("r", "r^", "r^");
    for length in [0, 1, 4_096, 8_191, 8_192, 8_193] {
        let wanted = if length < 8_192 { 2 } else { 0 };
        assert_eq!(upgrade_refusal(&old, length), wanted);
        assert_eq!(downgrade_refusal(&new, length), wanted);
        let mut answer = vec![0xAA; length];
        let got = upgrade(&old, &mut answer);
        assert_eq!((got.refused, got.count > 0), (wanted, wanted == 0));
        let untouched = answer.iter().filter(|&&byte| byte == 0xAA).count();
        assert_eq!(untouched, length - got.count as usize);
    }
    assert_eq!(upgrade_refusal(&[], 8_191), 2);
    assert_eq!(upgrade_refusal(&[], 8_192), 3);
    let two = set_case("r", "r^", &["r^"; 2]);
    assert_eq!(downgrade_refusal(&two, 8_191), 2);
}

#[test]
fn each_tool_takes_its_own_form() {
    for [outline, first, second] in EXAMPLES {
        assert_eq!(refused(upgrade, &case(outline, first, second)), 3);
        assert_eq!(refused(downgrade, &old_case(outline, first, second)), 3);
    }
    let three = set_case("r", "r^", &["r^", "a^", "r^"]);
    assert_eq!(refused(upgrade, &three), 3);
}

#[test]
fn the_old_form_has_no_question_14() {
    // Where today the set's count stands, an old case has its second selection's.
    let nine = format!("r^({})", ["a"; 8].join(","));
    assert_eq!(
        moved(upgrade, &old_case("r", "r^", &nine)),
        case("r", "r^", &nine)
    );
    let mut none = old_case("r", "r^", "r^");
    none.truncate(18);
    none.extend(list(&[0]));
    assert_eq!(refused(upgrade, &none), 4);
    let mut none = case("r", "r^", "r^");
    none.truncate(20);
    none.extend(list(&[0]));
    assert_eq!(refused(downgrade, &none), 14);
}

#[test]
fn more_than_one_selection_does_not_go_back() {
    let set = |count: usize| set_case("r(a)", "r(a^)", &vec!["r(0^)"; count]);
    assert_eq!(refused(downgrade, &set(0)), 14);
    assert_eq!(
        moved(downgrade, &set(1)),
        old_case("r(a)", "r(a^)", "r(0^)")
    );
    for count in 2..=8 {
        assert_eq!(refused(downgrade, &set(count)), 15);
    }
    assert_eq!(refused(downgrade, &set(9)), 14);
}

#[test]
fn figures_of_0_are_given_and_required() {
    let refusal = |first: &str, second: &str| refused(downgrade, &case("r(a)", first, second));
    for figure in ["@1", "@255", "@256", "@2000"] {
        assert_eq!(refusal(&format!("r(a^{figure})"), "r(a^)"), 15);
        assert_eq!(refusal("r(a^)", &format!("r{figure}(a^)")), 15);
    }
    assert_eq!(refusal("r@2001(a^)", "r(a^)"), 17);
    assert_eq!(refusal("r(a^)", "r(a^@2001)"), 17);
    assert_eq!(refusal("r(a^@1)", "r(a)"), 8);
    let given = moved(upgrade, &old_case("r(a)", "r(a^@7)", "r(0^)"));
    assert_eq!(given, case("r(a)", "r(a^)", "r(0^)"));
}

/// Records of four fields are read as records of five, and the other way round, so
/// that bytes may be accepted in both forms: what is moved over can be moved once
/// more, into another case.
#[test]
fn bytes_may_be_accepted_in_both_forms() {
    let node = |parent: u16, label: u16, position: u16| [parent, label, 0, position];
    let mut first = vec![node(0, 1, 1)];
    first.extend([node(0, 0, 0); 6]);
    first.extend([node(0, 5, 0), node(1, 0, 0)]);
    let second = [node(0, 0, 1), node(0, 0, 0)];
    let section = |rows: &[[u16; 4]]| list(&[&[rows.len() as u16], rows.as_flattened()].concat());
    let outline = list(&[1, 0, 1, 0]);
    let old = [outline, section(&first), section(&second)].concat();
    let once = moved(upgrade, &old);
    assert_eq!(moved(downgrade, &once), old);
    let twice = moved(upgrade, &once);
    assert_eq!(moved(downgrade, &twice), once);
    for case in [once, twice] {
        assert_eq!(verdict_refusal(&case, LIMIT, 0, &[0; CALLERS], 8_192), 0);
    }
}

#[test]
fn question_15_comes_after_all_on_the_case() {
    let of_two = |outline, first, second| refused(downgrade, &set_case(outline, first, second));
    assert_eq!(of_two("r(a,a)", "r^", &["r^", "r^"]), 6);
    assert_eq!(of_two("r", "r^", &["r^", "r^9"]), 7);
    assert_eq!(of_two("r", "r^", &["r^", "r"]), 8);
    assert_eq!(of_two("r", "r^", &["r^", "r^"]), 15);
    let mut cut = set_case("r", "r^", &["r^", "r^"]);
    cut.pop();
    assert_eq!(refused(downgrade, &cut), 3);
}
