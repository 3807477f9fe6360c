//! Request #106: one way of writing a case, and each reading of the request that
//! an answer can tell.

use super::notation::{
    bytes, case, list, rows, section, set_case, volume, Row, OUTLINE, SELECTION,
};
use super::LIMIT;
use reference::*;

/// What is written to the front of a buffer: as many bytes as the case has, and
/// the same again where it is written twice. The rest of the buffer is as it was.
fn normal(case: &[u8]) -> Vec<u8> {
    let mut answer = [0xAA; 8_192];
    let got = normalise(case, &mut answer);
    assert_eq!((got.refused, got.count), (0, case.len() as u64));
    let (written, rest) = answer.split_at(case.len());
    assert!(rest.iter().all(|&byte| byte == 0xAA));
    let mut again = [0x55; 8_192];
    assert_eq!(normalise(written, &mut again), got);
    assert_eq!(&again[..case.len()], written);
    written.to_vec()
}

/// The refusal, with nothing altered and the count 0.
fn refused(case: &[u8]) -> u64 {
    let mut answer = [0xAA; 8_192];
    let got = normalise(case, &mut answer);
    assert_eq!((got.count, answer), (0, [0xAA; 8_192]));
    got.refused
}

fn with_parent(parent: usize, [label, flag, position, figure]: [u16; 4]) -> Row {
    [parent as u16, label, flag, position, figure]
}

/// Every renumbering of a table in which parents come before their children.
fn shuffles(rows: &[Row]) -> Vec<Vec<Row>> {
    let mut found = Vec::new();
    extend(rows, &mut vec![0], &mut found);
    found
}

/// Goes on from the nodes that are chosen, each by its old number.
fn extend(rows: &[Row], chosen: &mut Vec<usize>, found: &mut Vec<Vec<Row>>) {
    let new = |old: u16| chosen.iter().position(|&q| q == usize::from(old));
    if chosen.len() == rows.len() {
        let row = |&q: &usize| {
            let [parent, own @ ..] = rows[q];
            with_parent(new(parent).unwrap_or(0), own)
        };
        return found.push(chosen.iter().map(row).collect());
    }
    let ready: Vec<usize> = (1..rows.len())
        .filter(|q| !chosen.contains(q) && new(rows[*q][0]).is_some())
        .collect();
    for q in ready {
        chosen.push(q);
        extend(rows, chosen, found);
        chosen.pop();
    }
}

/// A case over the outline r, with all three selections the same.
fn of_selection(rows: &[Row]) -> Vec<u8> {
    let section = bytes(rows, SELECTION);
    [
        &bytes(&[[0, 1, 0, 0, 0]], OUTLINE),
        &section,
        &list(&[2])[..],
        &section,
        &section,
    ]
    .concat()
}

/// Every numbering of the selection is written as the one given second.
fn selection_goes(from: &str, to: &str) {
    let all = shuffles(&rows(from));
    let wanted = of_selection(&rows(to));
    assert!(all.contains(&rows(to)), "{to} is another selection");
    for shuffled in all {
        assert_eq!(normal(&of_selection(&shuffled)), wanted, "{from}");
    }
}

/// The same of outlines.
fn outline_goes(from: &str, to: &str) {
    let of_outline =
        |rows: &[Row]| [bytes(rows, OUTLINE), case("r", "r^", "r^")[8..].to_vec()].concat();
    let all = shuffles(&rows(from));
    assert!(all.contains(&rows(to)), "{to} is another outline");
    for shuffled in all {
        assert_eq!(normal(&of_outline(&shuffled)), of_outline(&rows(to)));
    }
}

#[test]
fn the_deeper_entry_is_the_greater() {
    assert_eq!(shuffles(&rows("r^(a(b(r)),a(b,c))")).len(), 40);
    selection_goes("r^(a(b(r)),a(b,c))", "r^(a(b,c),a(b(r)))");
    // Where all but the depth is alike.
    selection_goes("r^(a(b(c)),a(b,c))", "r^(a(b,c),a(b(c)))");
    selection_goes("r^(a(a(a)),a(a,a))", "r^(a(a,a),a(a(a)))");
    // The label does not matter there, nor does anything after it.
    selection_goes("r^(a(b(0)),a(b,c(c)))", "r^(a(b,c(c)),a(b(0)))");
    selection_goes("r^(a(0(0),b),a(0,b))", "r^(a(0,b),a(0(0),b))");
}

#[test]
fn a_prefix_comes_first() {
    selection_goes("r^(a(b),a)", "r^(a,a(b))");
    selection_goes("r^(a(b(c)),a(b),a)", "r^(a,a(b),a(b(c)))");
    selection_goes("r^(a(b,b),a(b))", "r^(a(b),a(b,b))");
    selection_goes("r^(a(b,c),a(b,b))", "r^(a(b,b),a(b,c))");
    // Not where there is a difference before the shorter one ends.
    selection_goes("r^(b,a(b,c))", "r^(a(b,c),b)");
}

#[test]
fn label_then_edge_then_position_then_figure() {
    selection_goes("r^(a,0)", "r^(0,a)");
    selection_goes("r^(c,b,a,r,0)", "r^(0,r,a,b,c)");
    selection_goes("r^(//a,a)", "r^(a,//a)");
    selection_goes("r^(b,//a)", "r^(//a,b)");
    selection_goes("r(a^,a)", "r(a,a^)");
    selection_goes("r(a^3,a^,a^2)", "r(a^,a^2,a^3)");
    selection_goes("r(//a,a^)", "r(a^,//a)");
    selection_goes("r(b,a^)", "r(a^,b)");
    // The figure comes last, by number.
    selection_goes("r^(a@2,a@1,a)", "r^(a,a@1,a@2)");
    selection_goes("r^(a@256,a@255,a@2000)", "r^(a@255,a@256,a@2000)");
    selection_goes("r(a^,a@9)", "r(a@9,a^)");
    selection_goes("r^(//a,a@9)", "r^(a@9,//a)");
    selection_goes("r^(b,a@9)", "r^(a@9,b)");
    // Before what stands below, and not before what stands above.
    selection_goes("r^(a@1(0),a(c))", "r^(a(c),a@1(0))");
    selection_goes("r^(a(b,c),a(b@1))", "r^(a(b,c),a(b@1))");
    selection_goes("r^(a(b@2,b@1),a(b@1,b))", "r^(a(b,b@1),a(b@1,b@2))");
    // The sibling's own entry goes before all that is below it.
    selection_goes("r(a^(0),a(c))", "r(a(c),a^(0))");
    selection_goes("r^(//a(0),a(c))", "r^(a(c),//a(0))");
}

#[test]
fn labels_go_by_number() {
    // Of 255 and 256 the bytes would go the other way.
    let labelled = |labels: [u16; 5]| {
        let mut rows = vec![[0, 1, 0, 1, 0]];
        rows.extend(labels.map(|label| [0, label, 1, 0, 0]));
        of_selection(&rows)
    };
    let wanted = labelled([0, 2, 255, 256, 65_535]);
    assert_eq!(normal(&labelled([65_535, 256, 255, 2, 0])), wanted);
    assert_eq!(normal(&labelled([256, 0, 65_535, 255, 2])), wanted);
    let outline = |labels: [u16; 4]| {
        let mut fields = vec![5, 0, 7, 0];
        fields.extend(labels.into_iter().flat_map(|label| [0, label, 1]));
        [list(&fields), case("r", "r^", "r^")[8..].to_vec()].concat()
    };
    let wanted = outline([1, 255, 256, 65_535]);
    assert_eq!(normal(&outline([65_535, 256, 1, 255])), wanted);
}

#[test]
fn subtrees_are_ordered_within_first() {
    // As they stand, c before b, the second would come after the first.
    selection_goes("r^(a(c),a(c,b))", "r^(a(b,c),a(c))");
    selection_goes("r^(a(c(b,a)),a(c(a,r)))", "r^(a(c(r,a)),a(c(a,b)))");
}

#[test]
fn equal_subtrees_are_written_one_after_another() {
    selection_goes("r^(a,a,a)", "r^(a,a,a)");
    selection_goes("r^(a(b),a(b),b)", "r^(a(b),a(b),b)");
    selection_goes(
        "r^(a(b(0),b(0)),a(b(0),b(0)))",
        "r^(a(b(0),b(0)),a(b(0),b(0)))",
    );
    // Equal but for what stands deepest.
    selection_goes("r(a(b(c^)),a(b(c)),a(b(c)))", "r(a(b(c)),a(b(c)),a(b(c^)))");
}

#[test]
fn outline_siblings_go_by_label_with_all_that_is_below() {
    outline_goes("r(b,a(c))", "r(a(c),b)");
    outline_goes("r(c(a,b),a(c(b),b))", "r(a(b,c(b)),c(a,b))");
    // By label alone: neither depth nor strong has a say.
    outline_goes("r(!a,b(a(b(a))))", "r(!a,b(a(b(a))))");
}

#[test]
fn strong_flags_move_with_their_nodes() {
    outline_goes("r(!b,a(!c))", "r(a(!c),!b)");
    outline_goes("r(c(!b,!a),!b(c(!r),!a),a)", "r(a,!b(!a,c(!r)),c(!a,!b))");
    let strong = case("r(!b,a)", "r^", "r^");
    assert_eq!(normal(&strong), case("r(a,!b)", "r^", "r^"));
    assert_ne!(normal(&strong), normal(&case("r(b,!a)", "r^", "r^")));
}

#[test]
fn the_set_keeps_its_order() {
    let members = ["r^(c,b)", "r^(a,0)", "r^", "r^(a,0)"];
    let written = set_case("r", "r^", &["r^(b,c)", "r^(0,a)", "r^", "r^(0,a)"]);
    assert_eq!(normal(&set_case("r", "r^", &members)), written);
    let turned = set_case("r", "r^", &["r^", "r^(a,0)", "r^(c,b)", "r^(a,0)"]);
    assert_ne!(normal(&turned), written);
    // Equal members stay, and so does one that is the first selection.
    let equal = set_case("r(a)", "r^(a)", &["r^(a)"; 8]);
    assert_eq!(normal(&equal), equal);
}

#[test]
fn what_means_the_same_is_not_written_alike() {
    // The second condition says nothing; r//a and r/a are one in this outline.
    let once = case("r(a)", "r^(a)", "r^");
    assert_ne!(normal(&once), normal(&case("r(a)", "r^(a,a)", "r^")));
    assert_ne!(normal(&once), normal(&case("r(a)", "r^(//a)", "r^")));
}

/// A section of 64 outline records, or of 16 selection records with position 1 at
/// the root.
fn large(parent: impl Fn(u16) -> u16, label: impl Fn(u16) -> u16) -> Vec<u8> {
    let tree = |size: u16, fields: &[usize], position| {
        let row = |t: u16| {
            [
                parent(t),
                label(t),
                u16::from(t > 0),
                u16::from(t == 0) * position,
                0,
            ]
        };
        bytes(&(0..size).map(row).collect::<Vec<Row>>(), fields)
    };
    let selection = tree(16, SELECTION, 1);
    let mut case = [tree(64, OUTLINE, 0), selection.clone(), list(&[8])].concat();
    case.extend(selection.repeat(8));
    assert_eq!(case.len(), 1_846);
    case
}

#[test]
fn chains_and_stars_of_the_most_nodes() {
    let chain = large(|t| t.saturating_sub(1), |t| 1 + t % 3);
    assert_eq!(normal(&chain), chain);
    let star = large(|_| 0, |t| t + 1);
    assert_eq!(normal(&star), star);
    // Sixteen of its 64 are the selection's, so both go by their own numbers.
    let turned = large(|_| 0, |t| if t == 0 { 1 } else { 100 - t });
    let mut rows = vec![[0, 1, 0, 0, 0]];
    rows.extend((37..100).map(|label| [0, label, 1, 0, 0]));
    let mut selection = vec![[0, 1, 0, 1, 0]];
    selection.extend((85..100).map(|label| [0, label, 1, 0, 0]));
    let wanted = [bytes(&rows, OUTLINE), bytes(&selection, SELECTION)].concat();
    assert_eq!(normal(&turned)[..wanted.len()], wanted);
}

/// The parents of the outline's records.
fn outline_parents(case: &[u8]) -> Vec<u8> {
    case[2..2 + 64 * 6].iter().step_by(6).copied().collect()
}

#[test]
fn combs_and_a_heap_of_the_most_nodes() {
    // Each even number is one of the spine, and has a tooth, the number after it.
    let comb = |tooth| {
        let parent = |t: u16| t.saturating_sub(2 - t % 2);
        large(parent, move |t| if t % 2 == 1 { tooth } else { 5 })
    };
    assert_eq!(normal(&comb(4)), comb(4));
    // The spine goes before the teeth, and these come from the bottom up.
    let spine = (0..32u8).map(|t| t.saturating_sub(1));
    let wanted: Vec<u8> = spine.chain((0..32).rev()).collect();
    assert_eq!(outline_parents(&normal(&comb(6))), wanted);
    // Numbered level by level, which is no preorder.
    let heap = normal(&large(|t| t.saturating_sub(1) / 2, |t| 2 + t % 2));
    assert_eq!(outline_parents(&heap)[..8], [0, 0, 1, 2, 3, 4, 4, 3]);
}

/// Whether some permutation of the numbers, the root's excepted, turns one table
/// into the other.
fn renumbered(one: &[Row], other: &[Row]) -> bool {
    fn try_all(one: &[Row], other: &[Row], new: &mut Vec<usize>) -> bool {
        if new.len() == one.len() {
            return one.iter().zip(&*new).all(|(row, &at)| {
                let [parent, own @ ..] = *row;
                other[at] == with_parent(new[usize::from(parent)], own)
            });
        }
        (1..one.len()).any(|at| {
            if new.contains(&at) {
                return false;
            }
            new.push(at);
            let found = try_all(one, other, new);
            new.pop();
            found
        })
    }
    one.len() == other.len() && try_all(one, other, &mut vec![0])
}

/// All tables of so many nodes, with two labels and position 1 at one of them.
fn tables(size: usize, holders: usize) -> Vec<Vec<Row>> {
    let mut all = vec![vec![[0, 1, 0, 0, 0]]];
    for number in 1..size as u16 {
        let more = |rows: &Vec<Row>| {
            let mut longer = Vec::new();
            for code in 0..4 * number {
                let mut rows = rows.clone();
                rows.push([code / 4, code % 2, code / 2 % 2, 0, 0]);
                longer.push(rows);
            }
            longer
        };
        all = all.iter().flat_map(more).collect();
    }
    let held = |rows: Vec<Row>| {
        (0..holders).map(move |q| {
            let mut rows = rows.clone();
            rows[q][3] = 1;
            rows
        })
    };
    all.into_iter().flat_map(held).collect()
}

#[test]
fn written_alike_exactly_where_renumbering_turns_one_into_the_other() {
    for (size, holders) in [(1, 1), (2, 2), (3, 3), (4, 1)] {
        let all = tables(size, holders);
        let written: Vec<Vec<u8>> = all.iter().map(|rows| normal(&of_selection(rows))).collect();
        let mut alike = 0;
        for (i, one) in all.iter().enumerate() {
            for (j, other) in all.iter().enumerate().take(i) {
                let same = written[i] == written[j];
                assert_eq!(same, renumbered(one, other), "{one:?} and {other:?}");
                alike += u32::from(same);
            }
        }
        assert!(size < 3 || alike > 10);
    }
}

#[test]
fn only_the_kind_of_the_verdict_stays() {
    // Three trials pass and one does not: its rank is another one.
    let before = case("r(c,b,a)", "r(0^)", "r(//c^)");
    let judged = |case: &[u8]| {
        let got = verdict(case, LIMIT, 0, &mut [0; CALLERS], &mut [0; 8_192]);
        (got.kind, got.tried)
    };
    assert_eq!(judged(&before), (calls::NOT_INCLUDED, 2));
    assert_eq!(judged(&normal(&before)), (calls::NOT_INCLUDED, 1));
    let within = case("r(c,b,a)", "r(0^)", "r(//0^)");
    assert_eq!(judged(&within), judged(&normal(&within)));
}

#[test]
fn the_questions_are_2_to_8_with_14_and_17() {
    let good = case("r(b,a)", "r^", "r^");
    for length in [0, 1, 4_096, 8_191, 8_192, 8_193] {
        let wanted = if length < 8_192 { 2 } else { 0 };
        assert_eq!(normalise_refusal(&good, length), wanted);
        let mut answer = vec![0xAA; length];
        let got = normalise(&good, &mut answer);
        let count = if wanted == 0 { good.len() } else { 0 };
        assert_eq!((got.refused, got.count), (wanted, count as u64));
        assert!(answer[count..].iter().all(|&byte| byte == 0xAA));
    }
    assert_eq!(normalise_refusal(&[], 8_191), 2);
    assert_eq!(refused(&[]), 3);
    assert_eq!(refused(&[&good[..], &[0]].concat()), 3);
    assert_eq!(refused(&volume("r")), 3);
    assert_eq!(refused(&list(&[0, 0, 0])), 4);
    assert_eq!(refused(&set_case("r(a,a)", "r^", &[])), 14);
    assert_eq!(refused(&set_case("r(a,a)", "r^", &["r^"; 9])), 14);
    assert_eq!(refused(&case("0(a,a)", "r^9", "r")), 5);
    assert_eq!(refused(&case("r(a,a)", "r^9", "r")), 6);
    assert_eq!(refused(&case("r(a)", "r", "r^9")), 7);
    assert_eq!(refused(&case("r(a)", "r", "r^@2001")), 17);
    assert_eq!(refused(&case("r(a)", "r^", "r")), 8);
    assert_eq!(refused(&section("r^")), 3);
}
