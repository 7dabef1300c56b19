//! A frame with one of its bits changed, and its checks made right again or not.

use reference::check::sent_check;

/// The shortest frame, and the shortest with a check of its header.
const SHORTEST: usize = 9;
const SHORTEST_WITH_HEADER_CHECK: usize = 12;
const HEADER_CHECK: usize = 6;

/// The frame with this bit changed: as it then is, and, where that is another, with each check made right again that the bit
/// does not lie in.
pub fn changed(frame: &[u8], bit: usize) -> Vec<Vec<u8>> {
    let mut broken = frame.to_vec();
    broken[bit / 8] ^= 1 << (bit % 8);
    let mut repaired = broken.clone();
    for check in checks(frame.len()) {
        if !(check..check + 2).contains(&(bit / 8)) {
            let right = sent_check(&repaired[1..check]);
            repaired[check..check + 2].copy_from_slice(&right);
        }
    }
    match repaired == broken {
        true => vec![broken],
        false => vec![broken, repaired],
    }
}

/// Where the checks of a frame of so many bytes begin.
fn checks(length: usize) -> Vec<usize> {
    match length {
        0..SHORTEST => vec![],
        SHORTEST..SHORTEST_WITH_HEADER_CHECK => vec![length - 3],
        _ => vec![HEADER_CHECK, length - 3],
    }
}
