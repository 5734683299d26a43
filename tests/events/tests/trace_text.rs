//! What the trace program has to print, by the model alone.
use event_tests::lines::trace;

const PRINTED: &str = "line,code,key,data\n1,0,0,-\n2,0,0,0000000000000000\n3,0,72057594037927936,-\n4,0,0,-\n5,0,0,-\n6,0,0,-\n7,0,0,-\n8,8,0,-\n";
const REFUSED: &str = "line,code,key,data\n0,1,0,-\n";

#[test]
fn printed_trace() {
    let input = "3,8,2,4\nlearn,0\nget,0,5\nput,0,0,5,a1a1a1a1a1a1a1a1\ncopy,72057594037927936\nsavelog,0\nsavelog,1\nmap,0,5\nget,0,5\n";
    assert_eq!(trace(input.as_bytes()), PRINTED);
}

#[test]
fn settings_refused() {
    let inputs = ["", "\n", "3,8,2,4", "3,8,2\nlearn,0\n", "3,8,2,4,\n", "03,8,2,4\n", "2,8,2,4\n", "9,8,2,4\n", "3,12,2,4\n", "3,8,1,4\n", "3,8,2,3\n"];
    inputs.iter().for_each(|input| assert_eq!(trace(input.as_bytes()), REFUSED, "{input:?}"));
    let largest = "8,8192,1024,65536\nlearn,0\n3,18446744073709551616,2,4\n";
    assert_eq!(trace(largest.as_bytes()), REFUSED);
}

#[test]
fn lines_that_are_no_event() {
    let input = b"8,8,2,4\n\nlearn,0\r\nlearn,00\nLEARN,0\n\xff\0\nlearn,9\nlearn,0";
    let lines: String = (1..=7).map(|i| format!("{i},3,0,-\n")).collect();
    assert_eq!(trace(input), format!("line,code,key,data\n{lines}"));
    assert_eq!(trace(b"8,8,2,4\n"), "line,code,key,data\n");
}
