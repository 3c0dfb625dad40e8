//! The edges of the checks, by the proved calls.

use lomvuze_trials::{library, Library};
use lomvuze_verdicts as calls;

const PROVED: Library = library!(calls);

lomvuze_trials::edge_tests!(PROVED);
