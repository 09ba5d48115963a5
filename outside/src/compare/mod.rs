//! Comparisons of the second program with the proved library, in groups.
//!
//! "Second" is what the second program says (or a number that document 01 or 02 names), "library" what the proved library, or a
//! program made of it, says. Each group of surveys has some with locked sluices too.
mod both;
mod bounds;
mod cases;
mod damage;
mod faults;
mod figure;
mod large;
mod locked;
mod pickup_cases;
mod pickups;
mod process;
mod program;
mod ranges;
mod rests;
mod run_cases;
mod runs;
mod script;
mod small;
mod surveys;
pub(crate) mod tides;

use crate::chance::Chance;
use std::fmt::Debug;
use std::path::PathBuf;
use std::time::Instant;

/// How many differences of a group are printed.
const SHOWN: u64 = 5;

/// A group counts what it compares.
pub struct Group {
    made: u64,
    differ: u64,
}

impl Group {
    /// One comparison. `inputs` is made only where there is a difference to tell of.
    fn same<T: PartialEq + Debug + ?Sized>(&mut self, inputs: impl FnOnce() -> String, second: &T, library: &T) {
        self.made += 1;
        if second == library {
            return;
        }
        self.differ += 1;
        if self.differ <= SHOWN {
            println!("differs: {}\n  second:  {second:?}\n  library: {library:?}", inputs());
        }
    }
}

type Compare = fn(&mut Group, &mut Chance);

const GROUPS: [(&str, Compare); 13] = [
    ("lists of figure 1", figure::compare),
    ("small surveys", small::compare),
    ("large surveys", large::compare),
    ("long runs", runs::compare),
    ("how long a sluice rests", rests::compare),
    ("walks picked up at a setting", pickups::compare),
    ("refusals at their bounds", bounds::compare),
    ("random and damaged bytes", damage::compare),
    ("states of both engines", cases::compare),
    ("runs of both engines' states", run_cases::compare),
    ("states of walks picked up", pickup_cases::compare),
    ("the program walk", program::compare),
    ("tides", tides::compare),
];

/// Runs all groups; whether none failed. A group that compared nothing fails.
pub fn run(seed: u64) -> bool {
    let mut passed = 0;
    for (name, compare) in GROUPS {
        let start = Instant::now();
        let mut group = Group { made: 0, differ: 0 };
        compare(&mut group, &mut Chance::new(seed));
        let seconds = start.elapsed().as_secs_f64();
        println!("{name}: {} comparisons, {} differ ({seconds:.1} s)", group.made, group.differ);
        passed += usize::from(group.made > 0 && group.differ == 0);
    }
    println!("{passed} passed, {} failed", GROUPS.len() - passed);
    passed == GROUPS.len()
}

/// A file of the repository.
fn in_repository(path: &str) -> PathBuf {
    PathBuf::from(env!("CARGO_MANIFEST_DIR")).join("..").join(path)
}
