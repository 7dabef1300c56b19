//! AES-128 of FIPS 197, the cipher alone, as the standard words it: sixteen bytes, column after column.
//! The substitution is worked out from the field inverse and the affine step.

pub type Block = [u8; 16];

const ROUNDS: usize = 10;
const SUBSTITUTION: [u8; 256] = substitution();

/// Twice a field element: modulo x^8 + x^4 + x^3 + x + 1.
const fn doubled(a: u8) -> u8 {
    (a << 1) ^ ((a >> 7) * 0x1B)
}

/// The product of two field elements.
const fn product(a: u8, b: u8) -> u8 {
    let mut sum = 0;
    let mut power = a;
    let mut place = 0;
    while place < 8 {
        if b >> place & 1 == 1 {
            sum ^= power;
        }
        power = doubled(power);
        place += 1;
    }
    sum
}

/// The affine step of the substitution.
const fn affine(b: u8) -> u8 {
    b ^ b.rotate_left(1) ^ b.rotate_left(2) ^ b.rotate_left(3) ^ b.rotate_left(4) ^ 0x63
}

/// The substitution of all 256 bytes. Every element but 0 is a power of 03, whose inverse is F6.
const fn substitution() -> [u8; 256] {
    let mut table = [0; 256];
    table[0] = affine(0);
    let mut element = 1;
    let mut inverse = 1;
    let mut step = 0;
    while step < 255 {
        table[element as usize] = affine(inverse);
        element = product(element, 0x03);
        inverse = product(inverse, 0xF6);
        step += 1;
    }
    table
}

fn substituted(word: [u8; 4]) -> [u8; 4] {
    word.map(|byte| SUBSTITUTION[byte as usize])
}

/// The 44 words of the key schedule.
fn expanded(key: &Block) -> Vec<[u8; 4]> {
    let mut words: Vec<[u8; 4]> = key.chunks(4).map(|word| [word[0], word[1], word[2], word[3]]).collect();
    let mut constant = 1;
    for i in 4..4 * (ROUNDS + 1) {
        let mut word = words[i - 1];
        if i % 4 == 0 {
            word.rotate_left(1);
            word = substituted(word);
            word[0] ^= constant;
            constant = doubled(constant);
        }
        let before = words[i - 4];
        words.push([0, 1, 2, 3].map(|row| word[row] ^ before[row]));
    }
    words
}

fn add_round_key(state: &mut Block, words: &[[u8; 4]]) {
    for (byte, key) in state.iter_mut().zip(words.concat()) {
        *byte ^= key;
    }
}

/// Row r turns left by r columns.
fn shift_rows(state: &Block) -> Block {
    std::array::from_fn(|i| state[(i + 4 * (i % 4)) % 16])
}

fn mix_columns(state: &Block) -> Block {
    std::array::from_fn(|i| {
        let column = i / 4 * 4;
        let at = |row: usize| state[column + (i + row) % 4];
        doubled(at(0)) ^ product(at(1), 3) ^ at(2) ^ at(3)
    })
}

/// A key made ready for many blocks.
pub struct Cipher {
    words: Vec<[u8; 4]>,
}

impl Cipher {
    pub fn new(key: &Block) -> Cipher {
        Cipher { words: expanded(key) }
    }

    /// One block enciphered.
    pub fn encrypt(&self, block: &Block) -> Block {
        let mut state = *block;
        add_round_key(&mut state, &self.words[..4]);
        for round in 1..=ROUNDS {
            state = shift_rows(&state.map(|byte| SUBSTITUTION[byte as usize]));
            if round < ROUNDS {
                state = mix_columns(&state);
            }
            add_round_key(&mut state, &self.words[4 * round..4 * round + 4]);
        }
        state
    }
}
