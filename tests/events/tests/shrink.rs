//! A failing list becomes as short as it can be, and its text is what the trace program takes.
use event_tests::lines::{call, trace};
use event_tests::model::Settings;
use event_tests::shrink::{replay, show, shrink};
use event_tests::trial::{Act, Start};

#[test]
fn what_matters_is_left() {
    let fails = |list: &[u64]| list.contains(&17) && list.contains(&900);
    assert_eq!(shrink((0..1000).collect(), fails), [17, 900]);
    assert_eq!(shrink(vec![3; 100], |list: &[u64]| list.len() >= 7), [3; 7]);
    assert_eq!(shrink(vec![1, 2, 3], |_: &[u64]| true), []);
}

/// Fails where the order of two matters and each alone does nothing.
#[test]
fn order_is_kept() {
    let fails = |list: &[u64]| list.iter().position(|&n| n == 40).is_some_and(|at| list[at..].contains(&4));
    let list: Vec<u64> = (0..50).chain((0..50).rev()).collect();
    assert_eq!(shrink(list, fails), [40, 4]);
}

#[test]
fn text_of_a_list() {
    let settings = Settings::new(3, 8, 2, 4);
    let start = Start::Format(settings, vec![7; settings.bytes()]);
    let lines = "learn,0\nput,0,0,5,a1a1a1a1a1a1a1a1\ncopy,72057594037927936\nsavelog,0\nsavelog,1\nmap,0,5\nget,0,5\n";
    let acts: Vec<Act> = lines.split_inclusive('\n').map(|l| Act::Step(call(l.as_bytes(), 8).unwrap())).collect();
    assert_eq!(replay(&start, &acts), Ok(()));
    let text = show(&start, &acts);
    assert_eq!(text, format!("3,8,2,4\n{lines}"));
    assert!(trace(text.as_bytes()).ends_with("\n7,8,0,-\n"));
}
