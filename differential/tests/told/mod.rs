//! For the tests of the comparison: what it finds on two sides, made small and told.

use differential::report;
use differential::runs::Runs;
use differential::shrink::smallest;
use differential::sides::Side;
use std::time::Duration;

/// The smallest case of what is found on the two, told, with its number of commands.
pub fn found(left: &dyn Side, right: &dyn Side) -> (usize, String) {
    let mut runs = Runs::new(1, left, right);
    let found = runs.many(60_000).expect_err("a difference");
    let (case, failure) = smallest(
        &mut runs.pair,
        found.case.clone(),
        found.failure.clone(),
        Duration::from_secs(5),
    );
    let told = report::difference(1, &found, &case, &failure);
    (report::size(&case), told)
}
