//! Replies of the library that other programs read: AAREs as files, envelopes with their keys as lines of one file.

use cases::hexadecimal::hex;
use reference::library::Call;
use reference::meter::Meter;
use reference::receive::Outcome;
use std::collections::BTreeMap;
use std::path::Path;

/// How many of a kind are kept.
const KEPT_OF_A_KIND: usize = 25;

/// Where an APDU stands in a reply frame: behind flag, head, HCS and LLC, before FCS and flag.
const BEFORE_APDU: usize = 11;
const BEHIND_APDU: usize = 3;

/// The envelope in an accepted AARE of H is its last part, of this length.
const ENVELOPE_IN_AARE: usize = 33;

#[derive(Default)]
pub struct Samples {
    kept: BTreeMap<&'static str, usize>,
    openings: Vec<Vec<u8>>,
    sealed: Vec<String>,
}

impl Samples {
    /// Keeps what the library sent, where there are few of its kind yet.
    pub fn add(&mut self, call: &Call, meter: &Meter, outcome: &Outcome, room: &[u8]) {
        let (Call::Receive { authentication, .. }, 17..) = (call, outcome.reply.len()) else { return };
        let apdu = &room[BEFORE_APDU..outcome.reply.len() - BEHIND_APDU];
        let is_opening = apdu[0] == 0x61;
        if !is_opening && outcome.sealed.is_none() {
            return;
        }
        let kept = self.kept.entry(outcome.event).or_default();
        if *kept == KEPT_OF_A_KIND {
            return;
        }
        *kept += 1;
        if is_opening {
            self.openings.push(apdu.to_vec());
        }
        if let Some(sealed) = &outcome.sealed {
            let envelope = if is_opening { &apdu[apdu.len() - ENVELOPE_IN_AARE..] } else { apdu };
            let words: [&[u8]; 5] = [&sealed.key, authentication, &meter.title, envelope, &sealed.plain];
            self.sealed.push(words.map(hex).join(" "));
        }
    }

    /// Writes `aare-N.der` and `sealed.txt` into this folder.
    pub fn write(&self, folder: &Path) -> std::io::Result<()> {
        for (number, opening) in self.openings.iter().enumerate() {
            std::fs::write(folder.join(format!("aare-{number:03}.der")), opening)?;
        }
        std::fs::write(folder.join("sealed.txt"), self.sealed.join("\n") + "\n")
    }
}
