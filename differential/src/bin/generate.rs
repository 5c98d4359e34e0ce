//! generate SEED BATCH DRIVES PAIRS LISTS LARGE REPLAYED: writes a case text with so many drives, at least so many pairs of sides, so many lists to
//! collapse, so many large networks and so many drives that are replayed. Seed and batch alone decide what is drawn.

use differential::random::Random;
use differential::{drives, networks, replays};

fn main() {
    let numbers: Vec<u32> = std::env::args().skip(1).map(|word| word.parse().expect("a number")).collect();
    let [seed, batch, drives, pairs, lists, large, replayed] = numbers[..] else {
        panic!("generate SEED BATCH DRIVES PAIRS LISTS LARGE REPLAYED");
    };
    let random = &mut Random::new((seed as u64) << 32 | batch as u64);
    let mut out = String::new();
    for _ in 0..drives {
        let network = networks::network(random);
        drives::drive(random, &mut out, &network);
    }
    let mut asked = 0;
    while asked < pairs {
        asked += drives::routes(random, &mut out);
    }
    for _ in 0..lists {
        drives::list(random, &mut out);
    }
    for _ in 0..large {
        drives::large(random, &mut out);
    }
    for _ in 0..replayed {
        replays::drive(random, &mut out);
    }
    print!("{out}");
}
