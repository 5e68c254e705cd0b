// Wenatik's method in Rust: each split of a set once, by the halves that hold its lowest entrant;
// the sum over the losers taken out of the product; sums kept aside until all splits are done.
mod common;
use common::{Algebra, Method};

fn beaten<V: Algebra>(cells: &[V], grid: &[V; 256], n: usize, rest: u32, winner: usize) -> V {
    let mut sum = V::nothing();
    let mut left = rest;
    while left > 0 {
        let loser = left.trailing_zeros() as usize;
        sum = sum.plus(cells[rest as usize * n + loser].times(grid[winner * 16 + loser]));
        left &= left - 1;
    }
    sum
}

// Each member of the half beats whoever comes out of the rest.
fn pile<V: Algebra>(
    sums: &mut [V; 16],
    cells: &[V],
    grid: &[V; 256],
    n: usize,
    half: u32,
    rest: u32,
) {
    let mut left = half;
    while left > 0 {
        let winner = left.trailing_zeros() as usize;
        let cell = cells[half as usize * n + winner];
        sums[winner] = sums[winner].plus(cell.times(beaten(cells, grid, n, rest, winner)));
        left &= left - 1;
    }
}

struct EachSplitOnce;

impl Method for EachSplitOnce {
    fn refresh_set<V: Algebra>(memory: &mut [V], grid: &[V; 256], n: usize, set: u32) {
        let mut sums = [V::nothing(); 16];
        let others = set & (set - 1);
        let wanted = set.count_ones() / 2;
        let mut rest = others;
        while rest > 0 {
            if rest.count_ones() == wanted {
                pile(&mut sums, memory, grid, n, set - rest, rest);
                pile(&mut sums, memory, grid, n, rest, set - rest);
            }
            rest = (rest - 1) & others;
        }
        let mut left = set;
        while left > 0 {
            let entrant = left.trailing_zeros() as usize;
            memory[set as usize * n + entrant] = sums[entrant];
            left &= left - 1;
        }
    }
}

fn main() -> std::io::Result<()> {
    common::bench::<EachSplitOnce>()
}
