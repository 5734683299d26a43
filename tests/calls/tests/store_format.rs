//! Length and format against the independent implementation, byte by byte.
use call_tests::store::model::{self, Settings};
use call_tests::random::Random;
use call_tests::store::random::{small_settings};

fn same_format(r: &mut Random, s: Settings) {
    assert_eq!(call_tests::store::length(s), s.bytes() as u64, "{s:?}");
    let old = r.bytes(s.bytes());
    let (mut ours, mut theirs) = (old.clone(), old);
    assert_eq!(call_tests::store::format(&mut ours, s), 0, "{s:?}");
    assert_eq!(model::format(&mut theirs, s), 0);
    assert!(ours == theirs, "{s:?}");
    assert_eq!(call_tests::store::check(&ours), 0, "{s:?}");
}

#[test]
fn smallest_and_large_settings() {
    let mut r = Random::new(1);
    same_format(&mut r, Settings::new(3, 8, 2, 4));
    same_format(&mut r, Settings::new(8, 8, 1024, 65536));
    same_format(&mut r, Settings::new(8, 8192, 1024, 1024));
    let largest = Settings::new(8, 8192, 1024, 65536);
    assert_eq!(call_tests::store::length(largest), largest.bytes() as u64);
}

#[test]
fn random_settings() {
    let mut r = Random::new(2);
    for _ in 0..2000 {
        let s = Settings::new(r.among(3, 8), 8 * r.among(1, 16), r.among(2, 24), r.among(4, 40));
        same_format(&mut r, s);
    }
}

#[test]
fn settings_out_of_limits() {
    let mut r = Random::new(3);
    let odd = [0, 1, 2, 3, 4, 7, 8, 9, 12, 15, 16, 1023, 1024, 1025, 8184, 8192, 8200, 65535, 65536, 65537, 1 << 32, u64::MAX / 8, u64::MAX - 7, u64::MAX];
    for _ in 0..200_000 {
        let mut pick = || odd[r.below(odd.len() as u64) as usize];
        let s = Settings::new(pick(), pick(), pick(), pick());
        let expected = if s.in_limits() { s.bytes() as u64 } else { 0 };
        assert_eq!(call_tests::store::length(s), expected, "{s:?}");
        if !s.in_limits() {
            let old = r.bytes(64);
            let mut bytes = old.clone();
            assert_eq!(call_tests::store::format(&mut bytes, s), 1, "{s:?}");
            assert!(bytes == old);
        }
    }
}

#[test]
fn lengths_near_the_right_one() {
    let mut r = Random::new(4);
    for _ in 0..200 {
        let s = small_settings(&mut r);
        for d in -17i64..=17 {
            let old = r.bytes((s.bytes() as i64 + d) as usize);
            let mut bytes = old.clone();
            assert_eq!(call_tests::store::format(&mut bytes, s), (d != 0) as u64);
            assert!(d == 0 || bytes == old);
        }
    }
}
