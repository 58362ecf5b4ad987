//! Runs over the edges of a map, each at least once; they come before random
//! ones. What does not depend on the map is shared out between the maps.

mod access;
mod files;
mod life_cycles;
mod programming;
mod tokens;

use crate::chips;
use crate::map::Map;
use crate::model::Chip;
use crate::random::Random;
use crate::raw_tokens::RawTokens;
use crate::scenarios::Run;

/// One of two parts of what is shared out: every second run, from the first or
/// from the second on.
#[derive(Clone, Copy)]
pub struct Share(usize);

impl Share {
    pub const BOTH: [Share; 2] = [Share(0), Share(1)];

    fn of<T>(self, whole: impl Iterator<Item = T>) -> impl Iterator<Item = T> {
        whole.skip(self.0).step_by(2)
    }
}

/// All sweeps of a map, over one set of valid constants.
pub fn runs(map: &Map, share: Share, random: &mut Random) -> Vec<Run> {
    let mut tokens = RawTokens::new();
    let constants = chips::constants(&mut tokens, random);
    let blank = Chip::blank(map, &constants);
    let locked = chips::locked(&blank, &mut tokens, random);
    [
        access::runs(&blank, &locked, &mut tokens, random),
        programming::runs(&blank),
        files::runs(&blank, &locked, share),
        life_cycles::runs(&blank, &locked, share, random),
        tokens::runs(&blank, &locked, &tokens, random),
    ]
    .into_iter()
    .flatten()
    .collect()
}
