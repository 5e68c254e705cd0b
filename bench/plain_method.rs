// The plain method in Rust: for each winner, each half that holds him, and each loser.
mod common;
use common::{Algebra, Method};

fn sum_for<V: Algebra>(cells: &[V], grid: &[V; 256], n: usize, set: u32, winner: usize) -> V {
    let others = set - (1 << winner);
    let wanted = set.count_ones() / 2;
    let mut sum = V::nothing();
    let mut rest = others;
    while rest > 0 {
        if rest.count_ones() == wanted {
            let cell = cells[(set - rest) as usize * n + winner];
            let mut left = rest;
            while left > 0 {
                let loser = left.trailing_zeros() as usize;
                let meeting = cell.times(cells[rest as usize * n + loser]);
                sum = sum.plus(meeting.times(grid[winner * 16 + loser]));
                left &= left - 1;
            }
        }
        rest = (rest - 1) & others;
    }
    sum
}

struct EachWinner;

impl Method for EachWinner {
    fn refresh_set<V: Algebra>(memory: &mut [V], grid: &[V; 256], n: usize, set: u32) {
        let mut left = set;
        while left > 0 {
            let winner = left.trailing_zeros() as usize;
            memory[set as usize * n + winner] = sum_for(memory, grid, n, set, winner);
            left &= left - 1;
        }
    }
}

fn main() -> std::io::Result<()> {
    common::bench::<EachWinner>()
}
