//! The edges of the checks, by the reference.

use lomvuze_trials::REFERENCE;

lomvuze_trials::edge_tests!(REFERENCE);
