//! An independent search for the opening price: sorts the limits and sweeps over them.
//! It prints the same lines as the program `price_bench`, and times itself in the same way.
use std::time::Instant;

#[derive(Clone, Copy, PartialEq)]
enum Side {
    Buy,
    Sell,
}

#[derive(Clone, Copy)]
struct Order {
    side: Side,
    price: u32,
    size: u32,
}

struct Random {
    state: u64,
}

impl Random {
    fn below(&mut self, bound: u32) -> u32 {
        self.state = self
            .state
            .wrapping_mul(6_364_136_223_846_793_005)
            .wrapping_add(1_442_695_040_888_963_407);
        ((self.state >> 33) as u32) % bound
    }
}

fn random_orders(count: u32) -> Vec<Order> {
    let mut random = Random {
        state: 20_090_401 + count as u64,
    };
    (0..count)
        .map(|_| {
            let side = if random.below(2) == 0 { Side::Buy } else { Side::Sell };
            let price = (30 + random.below(30)) * 10;
            let size = 1 + random.below(100);
            Order { side, price, size }
        })
        .collect()
}

fn step(price: u32) -> u32 {
    if price < 300 { 5 } else { 10 }
}

/// The grid price nearest to the close, the lower of two, in an open interval; none if it has no grid price.
fn nearest_between(low: u32, high: u32, close: u32) -> Option<u32> {
    let first = low + step(low);
    let last = high - step(high - 1);
    if first > last {
        return None;
    }
    if close <= first {
        return Some(first);
    }
    if close >= last {
        return Some(last);
    }
    let below = close - close % step(close);
    let above = below + step(below);
    Some(if close - below <= above - close { below } else { above })
}

#[derive(Clone, Copy)]
struct Best {
    price: u32,
    volume: u32,
    surplus: u32,
    distance: u32,
}

fn consider(best: &mut Option<Best>, price: u32, demand: u32, supply: u32, close: u32) {
    let new = Best {
        price,
        volume: demand.min(supply),
        surplus: demand.abs_diff(supply),
        distance: price.abs_diff(close),
    };
    let better = match best {
        None => new.volume > 0,
        Some(old) => {
            (old.volume, new.surplus, new.distance, new.price)
                < (new.volume, old.surplus, old.distance, old.price)
        }
    };
    if better {
        *best = Some(new);
    }
}

/// The opening price with its quantity for limit orders on the grid.
fn top(orders: &[Order], close: u32) -> Option<(u32, u32)> {
    let mut limits: Vec<(u32, u32, u32)> = orders
        .iter()
        .map(|o| match o.side {
            Side::Buy => (o.price, o.size, 0),
            Side::Sell => (o.price, 0, o.size),
        })
        .collect();
    limits.sort_unstable();
    let mut demand: u32 = limits.iter().map(|l| l.1).sum();
    let mut supply = 0;
    let mut best = None;
    let mut at = 0;
    while at < limits.len() {
        let price = limits[at].0;
        let (mut bought, mut sold) = (0, 0);
        while at < limits.len() && limits[at].0 == price {
            bought += limits[at].1;
            sold += limits[at].2;
            at += 1;
        }
        supply += sold;
        consider(&mut best, price, demand, supply, close);
        demand -= bought;
        if at < limits.len() {
            if let Some(between) = nearest_between(price, limits[at].0, close) {
                consider(&mut best, between, demand, supply, close);
            }
        }
    }
    best.map(|b| (b.price, b.volume))
}

fn sum_of_prices(orders: &[Order], rounds: u32) -> u64 {
    let mut sum = 0u64;
    for round in 0..rounds {
        let close = 300 + round % 300;
        sum = sum.wrapping_add(top(std::hint::black_box(orders), close).map_or(0, |t| t.0 as u64));
    }
    sum
}

fn main() {
    let rounds: u32 = std::env::args().nth(1).and_then(|w| w.parse().ok()).unwrap_or(0);
    for count in [16, 64, 128] {
        let orders = random_orders(count);
        println!("{count} orders: {}", sum_of_prices(&orders, 300));
        if rounds > 0 {
            let start = Instant::now();
            let timed = sum_of_prices(&orders, rounds);
            println!("{count} orders, timed: {timed} {}", start.elapsed().as_nanos());
        }
    }
}
