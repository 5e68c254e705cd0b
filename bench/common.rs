// What both Rust programs share: the three algebras, the bribe file, the fill by levels, and the
// clock. Each fills the table by a method of its own.
use std::fmt::{self, Display};
use std::hint::black_box;
use std::io::{self, Write};
use std::time::Instant;

const ENTRANTS: usize = 16;
const CELLS: usize = (1 << ENTRANTS) * ENTRANTS;

pub type Fact = Option<u32>;

pub trait Algebra: Copy + Display {
    fn nothing() -> Self;
    fn one() -> Self;
    fn plus(self, other: Self) -> Self;
    fn times(self, other: Self) -> Self;
    fn weight(fact: Fact) -> Self;
}

#[derive(Clone, Copy)]
pub struct Possibility(bool);

impl Algebra for Possibility {
    fn nothing() -> Self {
        Possibility(false)
    }
    fn one() -> Self {
        Possibility(true)
    }
    fn plus(self, other: Self) -> Self {
        Possibility(self.0 | other.0)
    }
    fn times(self, other: Self) -> Self {
        Possibility(self.0 & other.0)
    }
    fn weight(fact: Fact) -> Self {
        Possibility(fact == Some(0))
    }
}

impl Display for Possibility {
    fn fmt(&self, f: &mut fmt::Formatter) -> fmt::Result {
        f.write_str(if self.0 { "yes" } else { "no" })
    }
}

const TOP: u32 = 999_999_999;

#[derive(Clone, Copy)]
pub struct Draws(u32);

impl Algebra for Draws {
    fn nothing() -> Self {
        Draws(0)
    }
    fn one() -> Self {
        Draws(1)
    }
    fn plus(self, other: Self) -> Self {
        Draws((self.0 + other.0).min(TOP))
    }
    fn times(self, other: Self) -> Self {
        Draws((self.0 as u64 * other.0 as u64).min(TOP as u64) as u32)
    }
    fn weight(fact: Fact) -> Self {
        Draws((fact == Some(0)) as u32)
    }
}

impl Display for Draws {
    fn fmt(&self, f: &mut fmt::Formatter) -> fmt::Result {
        self.0.fmt(f)
    }
}

// Stands for none: the number after the top.
const NO_BRIBE: u32 = TOP + 1;

#[derive(Clone, Copy)]
pub struct Bribe(u32);

impl Algebra for Bribe {
    fn nothing() -> Self {
        Bribe(NO_BRIBE)
    }
    fn one() -> Self {
        Bribe(0)
    }
    fn plus(self, other: Self) -> Self {
        Bribe(self.0.min(other.0))
    }
    fn times(self, other: Self) -> Self {
        Bribe((self.0 + other.0).min(NO_BRIBE))
    }
    fn weight(fact: Fact) -> Self {
        match fact {
            Some(price) if price <= TOP => Bribe(price),
            _ => Bribe(NO_BRIBE),
        }
    }
}

impl Display for Bribe {
    fn fmt(&self, f: &mut fmt::Formatter) -> fmt::Result {
        if self.0 <= TOP {
            self.0.fmt(f)
        } else {
            f.write_str("none")
        }
    }
}

// What it takes for each entrant to beat each other, at the place of both with the lower one first.
struct BribeFile {
    pairings: [(Fact, Fact); 256],
}

impl BribeFile {
    // One side of each pairing is free, and the other has a price below 1000.
    fn new() -> BribeFile {
        let mut pairings = [(Some(0), Some(0)); 256];
        let mut random: u32 = 12345;
        for a in 0..ENTRANTS {
            for b in a + 1..ENTRANTS {
                random = random.wrapping_mul(1_103_515_245).wrapping_add(12345);
                let price = Some((random >> 16) % 1000);
                let lower_is_free = (random >> 8) % 2 == 0;
                pairings[a * 16 + b] = if lower_is_free { (Some(0), price) } else { (price, Some(0)) };
            }
        }
        BribeFile { pairings }
    }

    fn pairing(&self, a: usize, b: usize) -> (Fact, Fact) {
        if a < b {
            self.pairings[a * 16 + b]
        } else {
            let (lower, higher) = self.pairings[b * 16 + a];
            (higher, lower)
        }
    }
}

fn level_grid<V: Algebra>(file: &BribeFile, grid: &mut [V; 256]) {
    for a in 0..ENTRANTS {
        for b in a + 1..ENTRANTS {
            let (forth, back) = file.pairing(a, b);
            grid[a * 16 + b] = V::weight(forth);
            grid[b * 16 + a] = V::weight(back);
        }
    }
}

pub trait Method {
    // Each member's cell of a set becomes its sum over the halves.
    fn refresh_set<V: Algebra>(memory: &mut [V], grid: &[V; 256], n: usize, set: u32);
}

fn fill<V: Algebra, M: Method>(file: &BribeFile, memory: &mut [V], n: usize) {
    memory[..(1 << n) * n].fill(V::nothing());
    for entrant in 0..n {
        memory[(1 << entrant) * n + entrant] = V::one();
    }
    let mut grid = [V::nothing(); 256];
    let mut size = 2;
    while size <= n as u32 {
        level_grid(file, &mut grid);
        for set in 0..1u32 << n {
            if set.count_ones() == size {
                M::refresh_set(memory, &grid, n, set);
            }
        }
        size *= 2;
    }
}

fn run<V: Algebra, M: Method>(times: u32) -> io::Result<()> {
    let file = BribeFile::new();
    let mut memory = vec![V::nothing(); CELLS];
    let mut best = u128::MAX;
    for _ in 0..times {
        let start = Instant::now();
        fill::<V, M>(black_box(&file), &mut memory, black_box(ENTRANTS));
        best = best.min(start.elapsed().as_nanos());
    }
    eprintln!("{best}");
    // the cells of the sets that have the same entrants among the lower eight and the upper eight
    let mut out = io::BufWriter::new(io::stdout());
    for k in 0..256 {
        for entrant in 0..ENTRANTS {
            writeln!(out, "{}", memory[k * 257 * ENTRANTS + entrant])?;
        }
    }
    out.flush()
}

// PROGRAM ALGEBRA TIMES
pub fn bench<M: Method>() -> io::Result<()> {
    let words: Vec<String> = std::env::args().collect();
    let times = words[2].parse().expect("how many times");
    match words[1].as_str() {
        "possibility" => run::<Possibility, M>(times),
        "draws" => run::<Draws, M>(times),
        "bribe" => run::<Bribe, M>(times),
        other => panic!("no algebra {other}"),
    }
}
