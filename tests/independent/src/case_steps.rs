//! Steps of tests: commands with the answers that they must give.

use crate::chips;
use crate::map::Map;
use crate::model::{Answer, Chip, Command};

/// Executes the commands; each must give its code and value.
pub fn expect(chip: &mut Chip, steps: &[(Command, u8, u64)]) {
    for &(command, code, value) in steps {
        assert_eq!(
            chip.execute(command),
            Answer { code, value },
            "{command:x?}"
        );
    }
}

pub fn powered(mut chip: Chip) -> Chip {
    assert_eq!(chip.execute(Command::PowerUp).code, 0);
    chip
}

/// A blank chip with a state and a count in its cells.
pub fn in_state(map: &Map, constants: &[u16], state: u8, count: u8) -> Chip {
    let mut chip = Chip::blank(map, constants);
    chips::lay(&mut chip, state, count);
    chip
}
