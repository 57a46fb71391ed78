//! The loop over all watch lists in plain Rust, over the same data as the measurement of the proved
//! pool: 2,700,000 clauses of three literals out of 200,000, in 16,200,000 words.
//! Build with `rustc -O walk.rs`.
use std::time::Instant;

const CLAUSES: u32 = 2_700_000;
const LITERALS: u32 = 200_000;
const NO_LINK: u32 = u32::MAX;

struct Pool {
    words: Vec<u32>,
    places: Vec<(u32, u32)>,
    heads: Vec<u32>,
}

impl Pool {
    fn lits(&self, clause: u32) -> &[u32] {
        let (place, count) = self.places[clause as usize];
        let start = place as usize + 3;
        &self.words[start..start + count as usize]
    }

    fn next_watch(&self, clause: u32, literal: u32) -> u32 {
        let place = self.places[clause as usize].0 as usize;
        if self.lits(clause)[0] == literal {
            self.words[place + 1]
        } else {
            self.words[place + 2]
        }
    }

    fn put(&mut self, lits: [u32; 3]) {
        let clause = self.places.len() as u32;
        self.places.push((self.words.len() as u32, 3));
        self.words.push(clause);
        self.words.push(self.heads[lits[0] as usize]);
        self.words.push(self.heads[lits[1] as usize]);
        self.words.extend_from_slice(&lits);
        self.heads[lits[0] as usize] = clause;
        self.heads[lits[1] as usize] = clause;
    }
}

fn walk(pool: &Pool, literal: u32) -> u32 {
    let mut mix = 0u32;
    let mut at = pool.heads[literal as usize];
    while at != NO_LINK {
        mix = mix.wrapping_mul(31).wrapping_add(clause_mix(pool.lits(at)));
        at = pool.next_watch(at, literal);
    }
    mix
}

fn clause_mix(lits: &[u32]) -> u32 {
    match lits {
        [a, b, c] => a.wrapping_add(*b) ^ *c,
        _ => 0,
    }
}

fn main() {
    let mut pool = Pool {
        words: Vec::with_capacity(16_777_216),
        places: Vec::with_capacity(CLAUSES as usize),
        heads: vec![NO_LINK; LITERALS as usize],
    };
    let mut seed = 1u32;
    for _ in 0..CLAUSES {
        seed = seed.wrapping_mul(1_664_525).wrapping_add(1_013_904_223);
        let a = (seed >> 8) % (LITERALS - 2);
        pool.put([a, a + 1, a + 2]);
    }
    for _round in 0..5 {
        let start = Instant::now();
        let mut mix = 0u32;
        for literal in 0..LITERALS {
            mix = mix.wrapping_add(walk(&pool, literal));
        }
        println!("{mix} {} ms", start.elapsed().as_millis());
    }
}
