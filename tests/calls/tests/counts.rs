//! An answer that the rules do not have ends a test where it is counted; one that did not happen is named.
use call_tests::code::{BAD_INPUT, CODES, OK, OTHER_KEY, UNSOUND, WRONG_STATE};
use call_tests::counts::Counts;
use call_tests::kind::{self, COLLECT, DONE, KINDS, VIEW};

fn told(kind: u64, code: u64) -> Counts {
    let mut counts = Counts::default();
    counts.add(kind, code);
    counts
}

#[test]
#[should_panic(expected = "the rules have no such answer: done")]
fn no_code() {
    told(DONE, CODES as u64);
}

#[test]
#[should_panic(expected = "collect 15")]
fn a_code_of_another_kind() {
    told(COLLECT, OTHER_KEY);
}

#[test]
#[should_panic(expected = "view 3")]
fn a_field_of_a_kind_without_fields() {
    told(VIEW, BAD_INPUT);
}

#[test]
#[should_panic(expected = "no kind 0")]
fn no_kind_accepted() {
    told(KINDS.len() as u64 + 1, OK);
}

#[test]
fn numbers_that_are_no_kind() {
    for number in kind::NONE {
        assert!(kind::find(number).is_none() && !kind::all().contains(&number), "{number}");
        assert_eq!(told(number, BAD_INPUT), told(0, BAD_INPUT));
    }
    assert!(kind::all().all(|number| kind::find(number).is_some()));
}

#[test]
fn what_did_not_happen() {
    let mut counts = told(COLLECT, WRONG_STATE);
    counts.add_all(&told(COLLECT, UNSOUND));
    let missing = counts.missing();
    let of_collect: Vec<&String> = missing.iter().filter(|cell| cell.starts_with("collect")).collect();
    assert_eq!(of_collect, ["collect 0", "collect 3", "collect 6"]);
    assert!(missing.contains(&"no kind 3".to_string()) && counts.accepted_less(1).len() == KINDS.len());
    assert_eq!(counts.codes_missing(&[OK, UNSOUND]).len(), CODES - 3);
}
