// What `params` of the large code finds, in plain Rust: the functions x^i y^j on the curve y^8 + y = x^9 over GF(64), by
// rising weight 8i + 9j, whose values at the 512 points are no combination of the values before them, and their dual lists.
// Row reduction of a vector of rows, with a table of products.

#[path = "../plain_field.rs"]
mod plain_field;

use plain_field::{Field, ORDER};

fn power(f: &Field, x: u8, exponent: usize) -> u8 {
    (0..exponent).fold(1, |power, _| f.products[power as usize][x as usize])
}

fn points(f: &Field) -> Vec<(u8, u8)> {
    let all = (0..ORDER as u8).flat_map(|x| (0..ORDER as u8).map(move |y| (x, y)));
    all.filter(|(x, y)| power(f, *y, 8) ^ y == power(f, *x, 9)).collect()
}

// The functions of weight up to 600, by weight.
fn functions() -> Vec<(usize, usize, usize)> {
    let mut all: Vec<_> = (0..8)
        .flat_map(|j| (0..75).map(move |i| (8 * i + 9 * j, i, j)))
        .filter(|(weight, _, _)| *weight <= 600)
        .collect();
    all.sort_unstable();
    all
}

// A row has the values, and behind them which members it is the combination of.
struct Reduced {
    rows: Vec<Vec<u8>>,
    pivots: Vec<usize>,
}

impl Reduced {
    // Whether the row is new. It then becomes a row, and is taken from the others.
    fn add(&mut self, f: &Field, n: usize, mut row: Vec<u8>) -> bool {
        for (other, pivot) in self.rows.iter().zip(&self.pivots) {
            let factor = row[*pivot];
            f.add_scaled(&mut row, factor, other);
        }
        let Some(pivot) = row[..n].iter().position(|entry| *entry != 0) else {
            return false;
        };
        let inverse = f.inverses[row[pivot] as usize];
        f.scale(&mut row, inverse);
        for other in &mut self.rows {
            let factor = other[pivot];
            f.add_scaled(other, factor, &row);
        }
        self.rows.push(row);
        self.pivots.push(pivot);
        true
    }
}

fn main() {
    let f = Field::new();
    let points = points(&f);
    let n = points.len();
    let mut labels = Vec::new();
    let mut reduced = Reduced { rows: Vec::new(), pivots: Vec::new() };
    for (weight, i, j) in functions() {
        if labels.len() == n {
            break;
        }
        let values = points.iter().map(|(x, y)| f.products[power(&f, *x, i) as usize][power(&f, *y, j) as usize]);
        let mut row: Vec<u8> = values.collect();
        row.resize(2 * n, 0);
        row[n + labels.len()] = 1;
        if reduced.add(&f, n, row) {
            labels.push(weight);
        }
    }
    let mut duals = vec![vec![0u8; n]; n];
    for (row, pivot) in reduced.rows.iter().zip(&reduced.pivots) {
        for (k, symbol) in row[n..].iter().enumerate() {
            duals[k][*pivot] = *symbol;
        }
    }
    let sum = duals.iter().flatten().fold(0u32, |sum, symbol| sum.wrapping_mul(31).wrapping_add(u32::from(*symbol)));
    println!("n {n}, last label {}, sum of the dual lists {sum}", labels[n - 1]);
}
