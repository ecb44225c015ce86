//! Recursion that hands procedures on through several formals before they are called: what tells
//! the activation that first passed a procedure from those that handed it on.

use crate::encode::written;
use crate::random::Random;

/// Procedure 1 declares variable 5 and procedure 6, which adds to it. It calls a formal, and then itself
/// until the fuel in 41 is used up. Its arguments are 6 and one more at first, and any two once there is
/// less fuel than the limit in 43: each is 6, or a formal handed on.
pub fn script(random: &mut Random) -> Vec<u8> {
    let mut of = |choices: &[&'static str]| random.pick(choices);
    let mut argument = || of(&["3", "4", "6"]);
    let (first, later) = (argument(), (argument(), argument()));
    let (called, last) = (of(&["3", "4"]), of(&["KN 42 0 0", "CL 3 0", "CL 4 0"]));
    let adds = of(&["1 AR 5 0 5 40", "2 AR 5 0 5 40 CL 3 0", "2 CL 4 0 AR 5 0 5 40"]);
    let (fuel, limit) = (random.between(3, 8), random.between(2, 6));
    written(&format!(
        "BK 6 4 VR 40 VR 41 VR 42 VR 43 PR 2 0 BK 0 0
         PR 1 2 FM 3 2 FM 4 2
           BK 5 11 VR 5 PR 6 0 BK 0 {adds} LB 7 9 LB 8 10 LB 9 11
           AR 41 1 41 40 AR 42 2 41 40 IF 42 9
           CL {called} 0
           AR 42 2 41 43 IF 42 7
           CL 1 2 6 {first} GO 8
           CL 1 2 {} {}
           {last}
           KN 42 0 0
         KN 40 1 0 KN 41 {fuel} 0 KN 43 {limit} 0 CL 1 2 2 2",
        later.0, later.1
    ))
}
