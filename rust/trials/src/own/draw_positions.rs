//! Drawing positions: of any seed and any root.

use super::{Given, Own};
use crate::{Name, Random};

pub struct DrawPositions;

impl Own for DrawPositions {
    fn inputs(&self, random: &mut Random, _: &Given, _: Name) -> Vec<Vec<u8>> {
        vec![random.digest().to_vec(), random.digest().to_vec()]
    }
}
