//! Whole programs, which the benchmark measures: the package's version of each answers as that with `BTreeMap` and `BTreeSet` does.

mod programs {
    pub mod liveness;
    pub mod marks;
    pub mod matching;
    mod random;
    pub mod registers;
}

use programs::{liveness, marks, matching, registers};

#[test]
fn a_liveness_analysis() {
    use liveness::{input, package, run, standard};
    let functions = input(8);
    assert_eq!(run::<package::Live>(&functions), run::<standard::Live>(&functions));
}

#[test]
fn a_register_allocator() {
    use registers::{input, package, run, standard};
    let functions = input(40);
    assert_eq!(run::<package::Registers>(&functions), run::<standard::Registers>(&functions));
}

#[test]
fn a_matching_engine() {
    use matching::{input, package, run, standard};
    let events = input(20_000);
    assert_eq!(run::<package::Levels>(&events), run::<standard::Levels>(&events));
}

#[test]
fn the_marks_of_an_editor() {
    use marks::{input, package, run, standard};
    let events = input(4_000);
    assert_eq!(run::<package::ByPosition>(&events), run::<standard::ByPosition>(&events));
}
