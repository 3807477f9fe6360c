//! E1 to E10 of document 01 through the library, sets, the old form, callers, striking out, one way of
//! writing a case, figures, and each call's way to refuse.

use cadwezin::{
    downgrade, fits, is_result, layout, minimise, nodes_at, nodes_shown, normalise, paths, upgrade,
    verdict, DocumentNode, LeftNode, Minimised, NodeRecord, Pattern, PatternNode, Refusal,
    Shortened, Shown, ShownNode, SummaryNode, Tallies, Verdict, ANSWER_BYTES, CALLERS, FIGURE_MOST,
    LIMIT_MOST, MEMBERS_MOST, MINIMISE_VERDICTS, TABLE_RECORDS, TALLY_MOST,
};

const E1: &[u8] = include_bytes!("../../tests/examples/e1.case");
const E2: &[u8] = include_bytes!("../../tests/examples/e2.case");
const E3: &[u8] = include_bytes!("../../tests/examples/e3.case");
const E4: &[u8] = include_bytes!("../../tests/examples/e4.case");
const E5: &[u8] = include_bytes!("../../tests/examples/e5.case");
const E6: &[u8] = include_bytes!("../../tests/examples/e6.case");
const E7: &[u8] = include_bytes!("../../tests/examples/e7.case");
const E8_SAME: &[u8] = include_bytes!("../../tests/examples/e8-same.case");
const E8_OTHER: &[u8] = include_bytes!("../../tests/examples/e8-other.case");
const E9: &[u8] = include_bytes!("../../tests/examples/e9.case");

/// /register/entry[date/year][place]//name, where each entry has a date and each date a year.
const REGISTER: &[u8] = include_bytes!("../../tests/striking/register.case");

/// The same under other numbers, twice, and as it is written in one way; so two other cases.
const NUMBERED: [[&[u8]; 3]; 3] = [
    [
        include_bytes!("../../tests/normal/register-1.case"),
        include_bytes!("../../tests/normal/register-2.case"),
        include_bytes!("../../tests/normal/register.normal"),
    ],
    [
        include_bytes!("../../tests/normal/depth-1.case"),
        include_bytes!("../../tests/normal/depth-2.case"),
        include_bytes!("../../tests/normal/depth.normal"),
    ],
    [
        include_bytes!("../../tests/normal/set-1.case"),
        include_bytes!("../../tests/normal/set-2.case"),
        include_bytes!("../../tests/normal/set.normal"),
    ],
];

/// E1 to E9 in the old form and with a set of one.
const FILED: [(&[u8], &[u8]); 10] = [
    (include_bytes!("../../tests/old/examples/e1.case"), E1),
    (include_bytes!("../../tests/old/examples/e2.case"), E2),
    (include_bytes!("../../tests/old/examples/e3.case"), E3),
    (include_bytes!("../../tests/old/examples/e4.case"), E4),
    (include_bytes!("../../tests/old/examples/e5.case"), E5),
    (include_bytes!("../../tests/old/examples/e6.case"), E6),
    (include_bytes!("../../tests/old/examples/e7.case"), E7),
    (
        include_bytes!("../../tests/old/examples/e8-same.case"),
        E8_SAME,
    ),
    (
        include_bytes!("../../tests/old/examples/e8-other.case"),
        E8_OTHER,
    ),
    (include_bytes!("../../tests/old/examples/e9.case"), E9),
];

const FILLING: u8 = 0xAA;

fn bytes(fields: &[u16]) -> Vec<u8> {
    fields
        .iter()
        .flat_map(|field| field.to_le_bytes())
        .collect()
}

fn tried(verdict: Verdict) -> u64 {
    let (Verdict::Contained { tried }
    | Verdict::NotContained { tried }
    | Verdict::Stopped { tried }) = verdict;
    tried
}

/// The verdict, with the tallies and the rest of the buffer held to what the documents say.
fn judged(case: &[u8], limit: u64, written: &[u16]) -> Verdict {
    let mut answer = [FILLING; ANSWER_BYTES];
    let mut tallies = Tallies {
        counts: [5; CALLERS],
    };
    let got = verdict(case, limit, 0, &mut tallies, &mut answer).expect("the case is accepted");
    assert_eq!(tallies.counts[0], 5 + tried(got));
    assert_eq!(tallies.counts[1..], [5; CALLERS - 1]);
    let written = bytes(written);
    assert_eq!(answer[..written.len()], written);
    assert!(answer[written.len()..].iter().all(|&byte| byte == FILLING));
    got
}

#[test]
fn e1_to_e5() {
    let shown = [5, 0, 1, 0, 0, 2, 0, 1, 3, 0, 0, 2, 0, 3, 4, 0, 1, 0];
    assert_eq!(
        judged(E1, LIMIT_MOST, &shown),
        Verdict::NotContained { tried: 1 }
    );
    assert_eq!(judged(E2, LIMIT_MOST, &[]), Verdict::Contained { tried: 1 });
    let shown = [2, 0, 1, 0, 0, 2, 0, 1, 1];
    assert_eq!(
        judged(E3, LIMIT_MOST, &shown),
        Verdict::NotContained { tried: 1 }
    );
    assert_eq!(judged(E4, LIMIT_MOST, &[]), Verdict::Contained { tried: 1 });
    assert_eq!(judged(E5, LIMIT_MOST, &[]), Verdict::Contained { tried: 1 });
}

#[test]
fn e6_and_e7_by_limit() {
    let shown = [3, 0, 1, 0, 0, 2, 0, 1, 3, 0, 1, 2];
    assert_eq!(judged(E6, 1, &[]), Verdict::Stopped { tried: 1 });
    assert_eq!(judged(E6, 2, &shown), Verdict::NotContained { tried: 2 });
    assert_eq!(
        judged(E6, LIMIT_MOST, &shown),
        Verdict::NotContained { tried: 2 }
    );
    assert_eq!(judged(E7, 1, &[]), Verdict::Contained { tried: 1 });
}

#[test]
fn e8_and_e9() {
    assert_eq!(
        judged(E8_SAME, LIMIT_MOST, &[]),
        Verdict::Contained { tried: 1 }
    );
    let shown = [1, 0, 1, 0, 1, 0];
    assert_eq!(
        judged(E8_OTHER, LIMIT_MOST, &shown),
        Verdict::NotContained { tried: 1 }
    );
    assert_eq!(judged(E9, LIMIT_MOST, &[]), Verdict::Contained { tried: 0 });
}

#[test]
fn e10() {
    let got = paths(E6, Pattern::First).expect("the case is accepted");
    assert_eq!((got.masks[1], got.counts[1]), (6, 2));
    let of = |node| got.of(PatternNode(node)).collect::<Vec<_>>();
    assert_eq!(of(0), [SummaryNode(0)]);
    assert_eq!(of(1), [SummaryNode(1), SummaryNode(2)]);
    assert_eq!((of(2), of(16)), (vec![], vec![]));
}

#[test]
fn what_is_shown_reads_back() {
    let mut answer = [FILLING; ANSWER_BYTES];
    let judged = verdict(E6, LIMIT_MOST, 0, &mut Tallies::default(), &mut answer);
    assert_eq!(judged, Ok(Verdict::NotContained { tried: 2 }));
    let shown = Shown::read(&answer).expect("a document is shown");
    let node = |parent, label| ShownNode {
        parent: DocumentNode(parent),
        label,
        figure: 0,
    };
    assert_eq!(shown.document, [node(0, 1), node(0, 2), node(1, 3)]);
    assert_eq!(shown.result, [DocumentNode(2)]);
    // Three records and their count, and a count and one node.
    for cut in 0..24 {
        assert_eq!(Shown::read(&answer[..cut]), None);
    }
    // The document shown tells the patterns apart.
    let (document, list) = (&answer[..20], &answer[22..24]);
    assert_eq!(fits(E6, document), Ok(true));
    assert_eq!(is_result(E6, Pattern::First, document, list), Ok(true));
    assert_eq!(is_result(E6, Pattern::Member(1), document, list), Ok(false));
}

#[test]
fn nodes_at_a_position() {
    let document = bytes(&[3, 0, 1, 0, 0, 2, 0, 1, 3, 0]);
    let mut answer = [FILLING; ANSWER_BYTES];
    assert_eq!(
        nodes_at(E6, Pattern::First, &document, 1, &mut answer),
        Ok(2)
    );
    let nodes = nodes_shown(&answer).expect("a count and as many nodes");
    assert_eq!(nodes, [DocumentNode(1), DocumentNode(2)]);
    assert!(answer[6..].iter().all(|&byte| byte == FILLING));
    assert_eq!(
        nodes_at(E6, Pattern::Member(1), &document, 1, &mut answer),
        Ok(1)
    );
}

#[test]
fn a_layout_fills_the_front_of_the_table() {
    let blank = NodeRecord {
        parent: DocumentNode(usize::MAX),
        at: SummaryNode(usize::MAX),
        label: u16::MAX,
        figure: u16::MAX,
    };
    for figures in [[0, 0], [1, FIGURE_MOST], [7, 0]] {
        let mut table = vec![blank; TABLE_RECORDS + 1];
        let case = with_figures(figures, [0, 0]);
        let count = layout(&case, Pattern::First, &bytes(&[0, 2]), &mut table);
        assert_eq!(count, Ok(3));
        let node = |parent, at, label, figure| NodeRecord {
            parent: DocumentNode(parent),
            at: SummaryNode(at),
            label,
            figure,
        };
        let [root, below] = figures;
        let laid = [node(0, 0, 1, root), node(0, 1, 2, 0), node(1, 2, 3, below)];
        assert_eq!(table[..3], laid);
        assert!(table[3..].iter().all(|record| *record == blank));
    }
}

/// E6 with these figures at the two nodes of the first pattern, and of the member.
fn with_figures(first: [u16; 2], member: [u16; 2]) -> Vec<u8> {
    let mut case = E6.to_vec();
    // The last field of each record.
    let places = [30, 40, 54, 64];
    for (place, figure) in places.into_iter().zip([first, member].concat()) {
        case[place..place + 2].copy_from_slice(&figure.to_le_bytes());
    }
    case
}

#[test]
fn figures_decide() {
    // The first canonical document passes where both figures are enough.
    for (first, member, contained) in [
        ([5, 6], [5, 6], true),
        ([5, 6], [4, 0], true),
        ([5, 6], [6, 6], false),
        ([5, 6], [5, 7], false),
        ([0, 255], [0, 256], false),
        ([FIGURE_MOST; 2], [FIGURE_MOST; 2], true),
    ] {
        let case = with_figures(first, member);
        let [root, below] = first;
        let shown = [2, 0, 1, root, 0, 2, below, 1, 1];
        if contained {
            assert_eq!(judged(&case, 1, &[]), Verdict::Stopped { tried: 1 });
        } else {
            assert_eq!(judged(&case, 1, &shown), Verdict::NotContained { tried: 1 });
        }
        let document = bytes(&[2, 0, 1, root, 0, 2, below]);
        let result = is_result(&case, Pattern::Member(1), &document, &bytes(&[1]));
        assert_eq!(result, Ok(contained));
        let nodes = nodes_at(
            &case,
            Pattern::Member(1),
            &document,
            1,
            &mut [0; ANSWER_BYTES],
        );
        assert_eq!(nodes, Ok(u64::from(contained)));
        assert_eq!(fits(&case, &document), Ok(true));
        let paths = paths(&case, Pattern::Member(1)).expect("the case is accepted");
        assert_eq!(paths.masks[..2], [1, 2]);
        let mut answer = [FILLING; ANSWER_BYTES];
        assert_eq!(refused(downgrade(&case, &mut answer)), 15);
    }
}

#[test]
fn a_figure_is_at_most_2000() {
    let fine = with_figures([FIGURE_MOST; 2], [FIGURE_MOST; 2]);
    let document = |figure| bytes(&[1, 0, 1, figure]);
    assert_eq!(fits(&fine, &document(FIGURE_MOST)), Ok(true));
    for figure in [FIGURE_MOST + 1, u16::MAX] {
        for place in 0..4 {
            let mut figures = [0; 4];
            figures[place] = figure;
            let [a, b, c, d] = figures;
            let case = with_figures([a, b], [c, d]);
            assert_eq!(refused(fits(&case, &document(0))), 17);
            assert_eq!(refused(paths(&case, Pattern::First)), 17);
        }
        let high = document(figure);
        assert_eq!(refused(fits(&fine, &high)), 17);
        assert_eq!(refused(is_result(&fine, Pattern::First, &high, &[])), 17);
    }
}

/// E6 with these members, each a record for the root and one for its node with position 1.
fn with_set(members: &[[u16; 4]]) -> Vec<u8> {
    let mut case = E6[..42].to_vec();
    case.extend(bytes(&[members.len() as u16]));
    for member in members {
        case.extend(bytes(&[2, 0, 1, 0, 0, 0]));
        case.extend(bytes(member));
        case.extend(bytes(&[0]));
    }
    case
}

#[test]
fn members_count_as_one() {
    let (child, below) = ([0, 0, 0, 1], [0, 3, 1, 1]);
    assert_eq!(with_set(&[child]), E6);
    let contained = Verdict::Contained { tried: 2 };
    for set in [&[child, below][..], &[below, child], &[below, child, below]] {
        assert_eq!(judged(&with_set(set), LIMIT_MOST, &[]), contained);
    }
    let shown = [2, 0, 1, 0, 0, 2, 0, 1, 1];
    assert_eq!(
        judged(&with_set(&[below]), LIMIT_MOST, &shown),
        Verdict::NotContained { tried: 1 }
    );
}

#[test]
fn a_member_is_named_by_its_place_in_the_set() {
    let case = with_set(&[[0, 0, 0, 1], [0, 3, 1, 1]]);
    let mask = |pattern| paths(&case, pattern).map(|paths| paths.masks[1]);
    assert_eq!(mask(Pattern::First), Ok(6));
    assert_eq!(mask(Pattern::Member(1)), Ok(2));
    assert_eq!(mask(Pattern::Member(2)), Ok(4));
    for member in [0, 3, MEMBERS_MOST + 1, u64::MAX] {
        assert_eq!(refused(mask(Pattern::Member(member))), 12);
    }
}

#[test]
fn a_set_has_one_to_eight_members() {
    let count = |members: u64| fits(&with_set(&vec![[0, 0, 0, 1]; members as usize]), &[]);
    assert_eq!(refused(count(0)), 14);
    assert_eq!(refused(count(1)), 10);
    assert_eq!(refused(count(MEMBERS_MOST)), 10);
    assert_eq!(refused(count(MEMBERS_MOST + 1)), 14);
}

#[test]
fn filed_cases_there_and_back() {
    for (old, new) in FILED {
        let mut answer = [FILLING; ANSWER_BYTES];
        assert_eq!(upgrade(old, &mut answer), Ok(new));
        assert!(answer[new.len()..].iter().all(|&byte| byte == FILLING));
        let mut answer = [FILLING; ANSWER_BYTES + 1];
        assert_eq!(downgrade(new, &mut answer), Ok(old));
        assert!(answer[old.len()..].iter().all(|&byte| byte == FILLING));
    }
}

#[test]
fn a_set_of_one_alone_goes_back() {
    let mut answer = [FILLING; ANSWER_BYTES];
    let mut back = |members: u64| {
        let case = with_set(&vec![[0, 0, 0, 1]; members as usize]);
        downgrade(&case, &mut answer).map(<[u8]>::len)
    };
    assert_eq!(back(1), Ok(56));
    assert_eq!(refused(back(0)), 14);
    assert_eq!(refused(back(2)), 15);
    assert_eq!(refused(back(MEMBERS_MOST)), 15);
    assert_eq!(refused(back(MEMBERS_MOST + 1)), 14);
}

/// Numbers that no caller but their own has to do with.
const ANYTHING: [u64; CALLERS] = [
    0,
    u64::MAX,
    TALLY_MOST,
    TALLY_MOST + 1,
    3,
    u64::MAX - 1,
    1 << 32,
    TALLY_MOST - 1,
];

/// A verdict on E6, with the tallies and the buffer held to be as they were where it is refused.
fn called(limit: u64, caller: u64, counts: [u64; CALLERS]) -> (Result<Verdict, Refusal>, Tallies) {
    let (mut tallies, mut answer) = (Tallies { counts }, [FILLING; ANSWER_BYTES]);
    let got = verdict(E6, limit, caller, &mut tallies, &mut answer);
    if got.is_err() {
        assert_eq!(tallies, Tallies { counts });
        assert_eq!(answer, [FILLING; ANSWER_BYTES]);
    }
    (got, tallies)
}

#[test]
fn a_verdict_is_about_its_callers_tally_alone() {
    for caller in 0..CALLERS {
        let bound = TALLY_MOST - LIMIT_MOST;
        for (tally, accepted) in [
            (0, true),
            (bound, true),
            (bound + 1, false),
            (TALLY_MOST, false),
            (u64::MAX - LIMIT_MOST + 1, false),
            (u64::MAX, false),
        ] {
            let mut counts = ANYTHING;
            counts[caller] = tally;
            let (got, tallies) = called(LIMIT_MOST, caller as u64, counts);
            if accepted {
                counts[caller] += tried(got.expect("the tally is in range"));
                assert_eq!(tallies.counts, counts);
                assert_eq!(counts[caller], tally + 2);
            } else {
                assert_eq!(refused(got), 9);
            }
        }
    }
}

#[test]
fn callers_are_0_to_7() {
    let wide = (0..CALLERS as u64).map(|low| (1 << 32) + low);
    for nobody in wide.chain([8, 9, 255, 256, 1 << 63, u64::MAX]) {
        for counts in [[0; CALLERS], [u64::MAX; CALLERS], ANYTHING] {
            assert_eq!(refused(called(1, nobody, counts).0), 16);
        }
    }
    // After the questions about the case, before the one about the tally.
    let mut tallies = Tallies {
        counts: [u64::MAX; CALLERS],
    };
    let mut answer = [FILLING; ANSWER_BYTES];
    let mut unheld = E6.to_vec();
    unheld[E6.len() - 4] = 0;
    let mut ask =
        |case: &[u8], caller| refused(verdict(case, 1, caller, &mut tallies, &mut answer));
    assert_eq!(ask(&unheld, 8), 8);
    assert_eq!(ask(E6, 8), 16);
    assert_eq!(ask(E6, 7), 9);
}

#[test]
fn an_order_loses_what_the_summary_grants() {
    let (mut tallies, mut answer) = (Tallies { counts: ANYTHING }, [FILLING; ANSWER_BYTES]);
    let got = minimise(REGISTER, LIMIT_MOST, 4, &mut tallies, &mut answer);
    assert_eq!(
        got,
        Ok(Minimised {
            struck: 2,
            tried: 5
        })
    );
    let mut counts = ANYTHING;
    counts[4] += 5;
    assert_eq!(tallies.counts, counts);
    let node = |parent, label, descendant, position| LeftNode {
        parent: PatternNode(parent),
        label,
        descendant,
        position,
        figure: 0,
    };
    let shortened = Shortened {
        left: vec![
            node(0, 1, false, 0),
            node(0, 2, false, 0),
            node(1, 5, false, 0),
            node(1, 6, true, 1),
        ],
        struck: vec![PatternNode(3), PatternNode(2)],
    };
    assert_eq!(Shortened::read(&answer), Some(shortened));
    // Four records, their count, and a count and two numbers.
    let written = 2 + 4 * 10 + 2 + 2 * 2;
    assert!(answer[written..].iter().all(|&byte| byte == FILLING));
    for cut in 0..written {
        assert_eq!(Shortened::read(&answer[..cut]), None);
    }
}

#[test]
fn what_is_left_has_the_same_results() {
    let (mut tallies, mut answer) = (Tallies::default(), [FILLING; ANSWER_BYTES]);
    let got = minimise(REGISTER, LIMIT_MOST, 0, &mut tallies, &mut answer);
    assert_eq!(
        got,
        Ok(Minimised {
            struck: 2,
            tried: 5
        })
    );
    // The summary has eight records, the first pattern six.
    let (summary, old) = (&REGISTER[..2 + 8 * 6], &REGISTER[50..50 + 2 + 6 * 10]);
    let left = &answer[..2 + 4 * 10];
    for [first, member] in [[old, left], [left, old]] {
        let case = [summary, first, &[1, 0], member].concat();
        assert_eq!(
            judged(&case, LIMIT_MOST, &[]),
            Verdict::Contained { tried: 2 }
        );
    }
}

#[test]
fn striking_out_asks_room_for_120_verdicts() {
    for (limit, caller) in [(1, 0), (3, 5), (LIMIT_MOST, 7)] {
        let most = TALLY_MOST - MINIMISE_VERDICTS * limit;
        let wrapped = u64::MAX - MINIMISE_VERDICTS * limit + 1;
        for (tally, accepted) in [
            (0, true),
            (most, true),
            (most + 1, false),
            (TALLY_MOST - limit, false),
            (wrapped, false),
            (u64::MAX, false),
        ] {
            let mut counts = ANYTHING;
            counts[caller] = tally;
            let (mut tallies, mut answer) = (Tallies { counts }, [FILLING; ANSWER_BYTES]);
            let got = minimise(REGISTER, limit, caller as u64, &mut tallies, &mut answer);
            match got {
                Ok(got) => counts[caller] += got.tried,
                Err(refusal) => {
                    assert_eq!(refusal.number(), 9);
                    assert_eq!(answer, [FILLING; ANSWER_BYTES]);
                }
            }
            assert_eq!((got.is_ok(), tallies.counts), (accepted, counts));
        }
    }
}

#[test]
fn numbers_alone_do_not_matter() {
    for cases in NUMBERED {
        let [.., normal] = cases;
        for case in cases {
            let mut answer = [FILLING; ANSWER_BYTES];
            assert_eq!(normalise(case, &mut answer), Ok(normal));
            assert!(answer[normal.len()..].iter().all(|&byte| byte == FILLING));
        }
    }
    // Document 01's examples stand in this way already.
    for (_, case) in FILED {
        assert_eq!(normalise(case, &mut [FILLING; ANSWER_BYTES + 1]), Ok(case));
    }
}

#[test]
fn the_set_keeps_its_order() {
    let (child, below) = ([0, 0, 0, 1], [0, 3, 1, 1]);
    let mut answer = [FILLING; ANSWER_BYTES];
    for set in [&[child, below][..], &[below, child], &[child, child]] {
        let case = with_set(set);
        assert_eq!(normalise(&case, &mut answer), Ok(&case[..]));
    }
}

#[test]
fn the_kind_of_a_verdict_stays() {
    for case in NUMBERED[0] {
        assert_eq!(
            judged(case, LIMIT_MOST, &[]),
            Verdict::Contained { tried: 2 }
        );
    }
}

/// The number of a refusal.
fn refused<T: std::fmt::Debug>(got: Result<T, Refusal>) -> u64 {
    got.expect_err("a refusal").number()
}

#[test]
fn refusals_alter_nothing() {
    let mut answer = [FILLING; ANSWER_BYTES];
    let full = Tallies {
        counts: [TALLY_MOST; CALLERS],
    };
    let mut tallies = full;
    let short = &mut [FILLING; ANSWER_BYTES - 1];
    let mut ask = |case: &[u8], limit, answer: &mut [u8]| {
        refused(verdict(case, limit, 0, &mut tallies, answer))
    };
    assert_eq!(ask(E6, 0, &mut answer), 1);
    assert_eq!(ask(E6, LIMIT_MOST + 1, &mut answer), 1);
    assert_eq!(ask(E6, 1, short), 2);
    assert_eq!(ask(&[], 1, &mut answer), 3);
    assert_eq!(ask(&[0; 6], 1, &mut answer), 4);
    assert_eq!(ask(E6, 1, &mut answer), 9);
    let mut strike = |case: &[u8], limit, caller, answer: &mut [u8]| {
        refused(minimise(case, limit, caller, &mut tallies, answer))
    };
    assert_eq!(strike(REGISTER, 0, 0, &mut answer), 1);
    assert_eq!(strike(REGISTER, 1, 0, short), 2);
    assert_eq!(strike(&REGISTER[1..], 1, 0, &mut answer), 3);
    assert_eq!(strike(REGISTER, 1, 8, &mut answer), 16);
    assert_eq!(strike(REGISTER, 1, 7, &mut answer), 9);
    assert_eq!(tallies, full);
    assert_eq!(refused(fits(E6, &[])), 10);
    let document = bytes(&[1, 0, 1, 0]);
    assert_eq!(refused(is_result(E6, Pattern::First, &document, &[])), 11);
    assert_eq!(
        refused(nodes_at(E6, Pattern::First, &document, 2, &mut answer)),
        12
    );
    assert_eq!(
        refused(nodes_at(E6, Pattern::First, &document, 1, &mut [])),
        2
    );
    let blank = NodeRecord::default();
    let mut table = [blank; TABLE_RECORDS];
    assert_eq!(
        refused(layout(E6, Pattern::First, &bytes(&[0, 0]), &mut table)),
        13
    );
    assert_eq!(
        refused(layout(E6, Pattern::First, &bytes(&[0, 1]), &mut table[1..])),
        2
    );
    let (old, _) = FILED[5];
    assert_eq!(refused(upgrade(old, short)), 2);
    assert_eq!(refused(upgrade(E6, &mut answer)), 3);
    assert_eq!(refused(downgrade(E6, short)), 2);
    assert_eq!(refused(downgrade(old, &mut answer)), 3);
    let two = with_set(&[[0, 0, 0, 1]; 2]);
    assert_eq!(refused(downgrade(&two, &mut answer)), 15);
    assert_eq!(refused(normalise(E6, short)), 2);
    assert_eq!(refused(normalise(&[], short)), 2);
    assert_eq!(refused(normalise(old, &mut answer)), 3);
    assert_eq!(refused(normalise(&with_set(&[]), &mut answer)), 14);
    assert!(answer
        .iter()
        .chain(short.iter())
        .all(|&byte| byte == FILLING));
    assert!(table.iter().all(|record| *record == blank));
}

#[test]
fn a_refusal_says_what_is_wrong() {
    let refusal = fits(&[], &[]).expect_err("a refusal");
    let text = "refused 3: the case is too long, cut short, or followed by something";
    assert_eq!(refusal.to_string(), text);
    let refusal = fits(&with_set(&[]), &[]).expect_err("a refusal");
    assert_eq!(
        refusal.to_string(),
        "refused 14: the set has not 1 to 8 members"
    );
    let two = with_set(&[[0, 0, 0, 1]; 2]);
    let mut answer = [0; ANSWER_BYTES];
    let refusal = downgrade(&two, &mut answer).expect_err("a refusal");
    assert_eq!(
        refusal.to_string(),
        "refused 15: the set has more than one member, or a pattern asks for a figure"
    );
    let refusal = called(1, 8, ANYTHING).0.expect_err("a refusal");
    assert_eq!(refusal.to_string(), "refused 16: the caller is not 0 to 7");
    let high = with_figures([0, 0], [0, FIGURE_MOST + 1]);
    let refusal = fits(&high, &[]).expect_err("a refusal");
    assert_eq!(refusal.to_string(), "refused 17: a figure is above 2,000");
}
