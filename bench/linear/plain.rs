// The same tasks as the program bench_linear, in plain Rust: row reduction of a vector of rows, with a table of products.
#[path = "../plain_field.rs"]
mod plain_field;

use plain_field::Field;
use std::env;
use std::process::exit;

struct Symbols {
    state: u64,
}

impl Symbols {
    fn next(&mut self) -> u8 {
        self.state = self
            .state
            .wrapping_mul(6364136223846793005)
            .wrapping_add(1442695040888963407);
        (self.state >> 58) as u8
    }

    fn matrix(&mut self, size: usize) -> Vec<Vec<u8>> {
        (0..size)
            .map(|_| (0..size).map(|_| self.next()).collect())
            .collect()
    }
}

fn clear_others(f: &Field, rows: &mut [Vec<u8>], k: usize, column: usize, from: usize) {
    let (above, rest) = rows.split_at_mut(k);
    let (pivot, below) = rest.split_first_mut().unwrap();
    for row in above.iter_mut().chain(below) {
        let factor = row[column];
        f.add_scaled(&mut row[from..], factor, &pivot[from..]);
    }
}

// Reduces the first columns and gives the number of pivots.
fn reduce(f: &Field, rows: &mut [Vec<u8>], width: usize) -> usize {
    let mut k = 0;
    for column in 0..width {
        let Some(found) = (k..rows.len()).find(|i| rows[*i][column] != 0) else {
            continue;
        };
        rows.swap(k, found);
        let inverse = f.inverses[rows[k][column] as usize];
        f.scale(&mut rows[k], inverse);
        clear_others(f, rows, k, column, column);
        k += 1;
    }
    k
}

fn checksum<'a>(entries: impl Iterator<Item = &'a u8>) -> u32 {
    entries.fold(0u32, |sum, entry| {
        sum.wrapping_mul(31).wrapping_add(u32::from(*entry))
    })
}

fn rank(f: &Field, mut rows: Vec<Vec<u8>>) -> u32 {
    let width = rows.len();
    reduce(f, &mut rows, width) as u32
}

// The sum of the dual list: the transpose of the inverse.
fn dual(f: &Field, mut rows: Vec<Vec<u8>>) -> u32 {
    let size = rows.len();
    for (i, row) in rows.iter_mut().enumerate() {
        row.resize(2 * size, 0);
        row[size + i] = 1;
    }
    if reduce(f, &mut rows, size) < size {
        return 0;
    }
    let rows = &rows;
    let duals: Vec<u8> = (0..size)
        .flat_map(|i| rows.iter().map(move |row| row[size + i]))
        .collect();
    checksum(duals.iter())
}

fn clear(f: &Field, mut rows: Vec<Vec<u8>>) -> u32 {
    for k in 0..rows.len() {
        rows[k][k] = 1;
        clear_others(f, &mut rows, k, k, 0);
    }
    checksum(rows.iter().flatten())
}

fn main() {
    let words: Vec<String> = env::args().skip(1).collect();
    let number = |place: usize| words[place].parse::<usize>().unwrap();
    let name = words[0].as_str();
    let size = number(1);
    let f = Field::new();
    let mut symbols = Symbols { state: 1 };
    let mut sum: u32 = 0;
    for _ in 0..number(2) {
        let rows = symbols.matrix(size);
        sum = sum.wrapping_add(match name {
            "rank" => rank(&f, rows),
            "dual" => dual(&f, rows),
            "clear" => clear(&f, rows),
            _ => exit(1),
        });
    }
    println!("{name} {size}: {sum}");
}
