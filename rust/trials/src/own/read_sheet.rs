//! Reading a sheet: the text says all that is read, so that honest sheets and their damage are those of [`sheet`].
//!
//! [`sheet`]: crate::sheet

use super::{Given, Own};
use crate::sheet::damage::{change_bytes, damaged, failing};
use crate::sheet::{accepted, Shape};
use crate::{Call, Honest, Name, Random};
use lomvuze_reference::sheet::{collect, write, MOST_BYTES};

pub struct ReadSheet;

impl Own for ReadSheet {
    /// A sheet of the list's sizes and counts.
    fn inputs(&self, random: &mut Random, given: &Given, _: Name) -> Vec<Vec<u8>> {
        let Honest { m, n, k, l, a, b, c, .. } = &given.list;
        let entries = [a, b, c].map(|list| list.len() / 12);
        let shape = Shape { m: *m, n: *n, k: *k, entries, pairs: *l as usize };
        vec![write(&accepted(random, &shape))]
    }

    /// In the text, or, for check 2, at times in the length of a buffer.
    fn fail(&self, call: &mut Call, random: &mut Random, check: u32) -> bool {
        if check == 2 && random.below(3) == 0 {
            change_length(call, random);
            return true;
        }
        let sheet = collect(&call.inputs[0]).expect("a sheet that passes check 1");
        loop {
            let text = failing(random, &sheet, &[check]);
            if text.len() <= MOST_BYTES {
                call.inputs[0] = text;
                return true;
            }
        }
    }

    fn damage(&self, call: &mut Call, random: &mut Random) -> bool {
        match (random.below(6), collect(&call.inputs[0])) {
            (0, _) => change_length(call, random),
            (1, _) | (_, Err(_)) => change_bytes(random, &mut call.inputs[0]),
            (_, Ok(sheet)) => call.inputs[0] = damaged(random, &sheet),
        }
        true
    }
}

/// Another length of a buffer that is written. The last one, an array, is passed without a length.
fn change_length(call: &mut Call, random: &mut Random) {
    let buffers = call.outputs.len() - 1;
    let buffer = &mut call.outputs[random.below(buffers)];
    let length = buffer.len();
    buffer.resize([length.saturating_sub(1), length + 1, length + 12, 0][random.below(4)], 0);
}
