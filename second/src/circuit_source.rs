//! The texts that the comparison over circuits calls with: whole, dressed, damaged, cut, large, chained, at the limits,
//! stored and real.

use crate::circuit_accepted::{older_accepted, Accepted};
use crate::circuit_accepted_newer::newer_accepted;
use crate::circuit_damage::damaged_text;
use crate::circuit_dress::{comment, dressed, dressed_lemmas, symbols, Dress};
use crate::circuit_limits::{chain_pair, limit_pair, Pair};
use crate::circuit_limits_newer::{newer_chain_pair, newer_limit_pair};
use crate::circuit_random::{circuit, CircuitSizes, Drawn, SMALL_CIRCUIT};
use crate::circuit_random_newer::{newer_circuit, refused_circuit};
use crate::circuit_telling::{newer_refused, older_refused};
use crate::random::Random;

const MEDIUM: CircuitSizes = CircuitSizes { inputs: 5, latches: 6, gates: 20, lemmas: 6 };

/// The edition that texts are of, before they are damaged.
#[derive(Clone, Copy, PartialEq, Eq, Debug)]
pub enum Edition {
    Older,
    Newer,
}

impl Edition {
    pub const ALL: [Edition; 2] = [Edition::Older, Edition::Newer];

    pub fn name(self) -> &'static str {
        match self {
            Edition::Older => "2007",
            Edition::Newer => "1.9",
        }
    }
}

/// What a pair of texts is, in the order of `NAMES`.
#[derive(Clone, Copy, PartialEq, Eq, Debug)]
pub enum Kind {
    Whole,
    Dressed,
    Damaged,
    Cut,
    Symbols,
    Chain,
    Limit,
    Stored,
    Real,
}

impl Kind {
    pub const NAMES: [&'static str; 9] =
        ["whole", "dressed", "damaged", "cut", "symbols", "chain", "limit", "stored", "real"];
}

/// A pair of texts to call with, and the largest budget where its own count is larger.
pub struct CircuitSource {
    pub kind: Kind,
    pub pair: Pair,
    pub cap: u32,
}

fn source(kind: Kind, pair: Pair) -> CircuitSource {
    let cap = if kind == Kind::Real || pair[0].len() > 600 { 20 } else { 500 };
    CircuitSource { kind, pair, cap }
}

/// The next texts: mostly one pair, or one pair cut at every byte.
pub fn sources(random: &mut Random, edition: Edition) -> Vec<CircuitSource> {
    let one = match edition {
        Edition::Older => older_source(random),
        Edition::Newer => newer_source(random),
    };
    one.map_or_else(|| cuts(random, edition), |one| vec![one])
}

fn older_source(random: &mut Random) -> Option<CircuitSource> {
    let one = match random.below(200) {
        0..=34 => {
            let sizes = if random.once_in(5) { MEDIUM } else { SMALL_CIRCUIT };
            whole(circuit(random, sizes))
        }
        35..=54 => source(Kind::Dressed, dressed_pair(random, Edition::Older, 40, 0)),
        55..=129 => damaged(random, Edition::Older),
        130..=149 => source(Kind::Symbols, dressed_pair(random, Edition::Older, 10, 60)),
        150..=166 => source(Kind::Chain, chain_pair(random)),
        167..=189 => source(Kind::Limit, limit_pair(random)),
        190..=191 => return None,
        _ => real_damaged(random, Edition::Older),
    };
    Some(one)
}

/// Fewer long texts and large circuits than there are of the other edition: what they share has been compared there.
fn newer_source(random: &mut Random) -> Option<CircuitSource> {
    let one = match random.below(200) {
        0..=49 => {
            let sizes = if random.once_in(12) { MEDIUM } else { SMALL_CIRCUIT };
            whole(newer_circuit(random, sizes))
        }
        50..=69 => whole(refused_circuit(random, SMALL_CIRCUIT)),
        70..=89 => source(Kind::Dressed, dressed_pair(random, Edition::Newer, 40, 0)),
        90..=151 => damaged(random, Edition::Newer),
        152..=173 => source(Kind::Symbols, dressed_pair(random, Edition::Newer, 10, 60)),
        174..=178 => source(Kind::Chain, newer_chain_pair(random)),
        179..=190 => source(Kind::Limit, newer_limit_pair(random)),
        191..=192 => return None,
        _ => real_damaged(random, Edition::Newer),
    };
    Some(one)
}

fn whole(drawn: Drawn) -> CircuitSource {
    source(Kind::Whole, [drawn.circuit().into_bytes(), drawn.lemma_text().into_bytes()])
}

/// A small circuit, sometimes one that is refused for its counts.
fn small(random: &mut Random, edition: Edition) -> Drawn {
    match edition {
        Edition::Newer if random.once_in(8) => refused_circuit(random, SMALL_CIRCUIT),
        Edition::Newer => newer_circuit(random, SMALL_CIRCUIT),
        Edition::Older => {
            let mut drawn = circuit(random, SMALL_CIRCUIT);
            if random.once_in(30) {
                drawn.outputs = drawn.inputs.clone();
            }
            drawn
        }
    }
}

/// A small circuit dressed: so many of a hundred with large numbers, and so many with faults in the symbols.
fn dressed_pair(random: &mut Random, edition: Edition, large: usize, faults: usize) -> Pair {
    let drawn = small(random, edition);
    let dress = Dress::random(random, large);
    let mut text = dressed(random, &drawn, &dress);
    if faults > 0 || random.once_in(2) {
        text.extend(symbols(random, &drawn, faults));
    }
    if random.once_in(3) {
        text.extend(comment(random));
    }
    [text, dressed_lemmas(random, &drawn, &dress)]
}

/// A circuit text, a lemma text or both damaged.
fn damaged(random: &mut Random, edition: Edition) -> CircuitSource {
    let [mut text, mut lemmas] = dressed_pair(random, edition, 20, 5);
    let which = random.below(5);
    if which > 1 {
        text = damaged_text(random, &text);
    }
    if which < 3 {
        lemmas = damaged_text(random, &lemmas);
    }
    source(Kind::Damaged, [text, lemmas])
}

/// A pair with its circuit text cut at every byte, and with its lemma text cut so.
fn cuts(random: &mut Random, edition: Edition) -> Vec<CircuitSource> {
    let [text, lemmas] = dressed_pair(random, edition, 20, 0);
    let of_text = (0..=text.len()).map(|length| [text[..length].to_vec(), lemmas.clone()]);
    let of_lemmas = (0..lemmas.len()).map(|length| [text.clone(), lemmas[..length].to_vec()]);
    of_text.chain(of_lemmas).map(|pair| source(Kind::Cut, pair)).collect()
}

const REAL: [[&[u8]; 2]; 3] = [
    [include_bytes!("../../cases/circuits/loader.aag"), include_bytes!("../../cases/circuits/loader.lemmas")],
    [include_bytes!("../../cases/circuits/ledger.aag"), include_bytes!("../../cases/circuits/ledger.lemmas")],
    [include_bytes!("../../cases/circuits/assumed.aag"), include_bytes!("../../cases/circuits/assumed.lemmas")],
];

/// A real circuit, mostly damaged.
fn real_damaged(random: &mut Random, edition: Edition) -> CircuitSource {
    let [text, lemmas] = match edition {
        Edition::Older => REAL[random.below(2)],
        Edition::Newer => REAL[2],
    };
    let text = if random.once_in(8) { text.to_vec() } else { damaged_text(random, text) };
    let lemmas = if random.once_in(2) { lemmas.to_vec() } else { damaged_text(random, lemmas) };
    source(Kind::Real, [text, lemmas])
}

/// Every stored pair of an edition.
pub fn stored_sources(edition: Edition) -> Vec<CircuitSource> {
    let (refused, read) = match edition {
        Edition::Older => (older_refused(), older_accepted()),
        Edition::Newer => (newer_refused(), newer_accepted()),
    };
    let read = read.into_iter().map(|Accepted { sample, .. }| sample);
    let samples = refused.into_iter().chain(read);
    samples.map(|sample| source(Kind::Stored, [sample.circuit, sample.lemmas])).collect()
}
