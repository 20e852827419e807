//! The stand-ins against constants that stand in the unmodified files.

#[test]
fn merkle_stand_in_against_the_constants_of_cmr_rs() {
    for (what, holds) in simplicity::merkle::selfcheck::run() {
        assert!(holds, "{what}");
    }
}
