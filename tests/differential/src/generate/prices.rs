//! Prices for W, by families: those at the borders come often, as most costs are alike there.

use crate::reference::HIGHEST;
use crate::rng::Rng;

fn any(rng: &mut Rng) -> u8 {
    rng.between(0, HIGHEST.into()) as u8
}

/// Legal prices of a term, a literal and a connection.
pub fn drawn_prices(rng: &mut Rng) -> [u8; 3] {
    match rng.below(12) {
        0 => [1, 1, 0],
        1 => [0, 0, 0],
        2 => [HIGHEST; 3],
        3 => [(); 3].map(|()| rng.pick(&[0, 0, 0, 1, HIGHEST])),
        4 | 5 => [(); 3].map(|()| rng.below(4) as u8),
        6 => [(); 3].map(|()| any(rng)),
        7 => [rng.below(3) as u8, rng.below(3) as u8, any(rng)],
        8 => one_price(rng),
        // The rival is met.
        9 => [rng.below(4) as u8, rng.below(4) as u8, 0],
        _ => [any(rng), any(rng), 0],
    }
}

/// One price alone, the others 0.
fn one_price(rng: &mut Rng) -> [u8; 3] {
    let mut prices = [0; 3];
    prices[rng.below(3)] = rng.between(1, HIGHEST.into()) as u8;
    prices
}

/// Other legal prices than these.
pub fn other_prices(rng: &mut Rng, prices: [u8; 3]) -> [u8; 3] {
    let other = drawn_prices(rng);
    if other != prices {
        return other;
    }
    // One price is moved by one, and stays legal.
    let mut other = prices;
    let moved = &mut other[rng.below(3)];
    *moved = if *moved == 0 { 1 } else { *moved - 1 };
    other
}
