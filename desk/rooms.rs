// The calls compared with many numbers of lent bytes.

use crate::calls::{Calls, GUARD};
use crate::random::Random;

// Random bytes for an output with its guards, and the same bytes with every bit turned: one that is written differs from one of the two.
pub fn fills(random: &mut Random, room: usize) -> [Vec<u8>; 2] {
    let fill = random.bytes(GUARD + room + GUARD);
    let turned = fill.iter().map(|byte| !byte).collect();
    [fill, turned]
}

impl Calls {
    // The answer of all to an input with so many bytes lent, or how one differs from the first.
    pub fn agreed(&self, input: &[u8], room: usize, random: &mut Random) -> Result<u64, String> {
        let [fill, turned] = fills(random, room);
        self.agreed_on(input, &turned)?;
        let (answer, _) = self.agreed_on(input, &fill)?;
        Ok(answer)
    }

    // Compares with every number of bytes up to one unit more than needed, and gives the answer to the last.
    pub fn in_every_room(&self, input: &[u8], random: &mut Random) -> Result<u64, String> {
        for room in 0..self.needed(input) + self.unit {
            self.agreed(input, room, random)?;
        }
        self.agreed(input, self.needed(input) + self.unit, random)
    }

    // Compares with no room, one byte too few, the exact room, one unit more, and the most that is ever needed.
    pub fn in_some_rooms(&self, input: &[u8], random: &mut Random) -> Result<u64, String> {
        let needed = self.needed(input);
        for room in [0, needed.saturating_sub(1), needed, needed + self.unit] {
            self.agreed(input, room, random)?;
        }
        self.agreed(input, self.most_bytes, random)
    }
}
