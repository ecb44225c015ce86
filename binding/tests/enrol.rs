//! The library is there and answers.

use binding::enrol::{check, guarded_check};

#[test]
fn a_fit_script_and_an_empty_one() {
    let fit = b"BK\x00\x00\x00\x00";
    assert_eq!(check(fit), [0, 0]);
    assert_eq!(guarded_check(fit), Ok([0, 0]));
    assert_eq!(check(&[]), [1, 0]);
    assert_eq!(guarded_check(&[]), Ok([1, 0]));
}

#[test]
fn the_longest_script_and_one_longer() {
    let mut script = b"BK\x01\x00\xff\x03VR\x01\x00".to_vec();
    (0..1_022).for_each(|_| script.extend(b"KN\x01\x00\x05\x00\x00\x00"));
    script.extend(b"AD\x01\x00\x01\x00");
    assert_eq!(script.len(), 8_192);
    assert_eq!(guarded_check(&script), Ok([0, 0]));
    script.extend(b"AD");
    assert_eq!(guarded_check(&script), Ok([1, 0]));
}
