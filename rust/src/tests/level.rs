//! The choice between the two copies.

use std::{env, is_x86_feature_detected};

use crate::level::{has_features, is_v3};

#[test]
fn the_processor_has_what_the_second_copy_needs() {
    let all = is_x86_feature_detected!("avx2") && is_x86_feature_detected!("bmi1") && is_x86_feature_detected!("bmi2");
    let all = all && is_x86_feature_detected!("lzcnt") && is_x86_feature_detected!("popcnt");
    assert_eq!(has_features(), all);
    assert_eq!(is_v3(), all && env::var_os("BITPACKING_FIRST_COPY").is_none());
    assert_eq!(is_v3(), is_v3());
}
