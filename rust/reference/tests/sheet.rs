//! The edges of the checks of sheets, by the reference.

use lomvuze_reference::sheet::listing;
use lomvuze_trials::sheet::edges::Reader;
use lomvuze_trials::REFERENCE;

const READER: Reader = Reader { library: REFERENCE, listing };

lomvuze_trials::sheet_edge_tests!(READER);
