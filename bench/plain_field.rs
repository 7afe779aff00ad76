// GF(64) by a table of products, shared by the plain Rust programs.

pub const ORDER: usize = 64;
const MODULUS: u32 = 67;

pub struct Field {
    pub products: Vec<[u8; 256]>,
    pub inverses: [u8; 256],
}

impl Field {
    pub fn new() -> Field {
        let mut products = vec![[0u8; 256]; ORDER];
        let mut inverses = [0u8; 256];
        for x in 0..ORDER {
            for y in 0..ORDER {
                products[x][y] = multiply(x as u32, y as u32);
                if products[x][y] == 1 {
                    inverses[x] = y as u8;
                }
            }
        }
        Field { products, inverses }
    }

    pub fn scale(&self, row: &mut [u8], factor: u8) {
        let products = &self.products[factor as usize];
        for entry in row {
            *entry = products[*entry as usize];
        }
    }

    pub fn add_scaled(&self, row: &mut [u8], factor: u8, other: &[u8]) {
        if factor == 0 {
            return;
        }
        let products = &self.products[factor as usize];
        for (entry, add) in row.iter_mut().zip(other) {
            *entry ^= products[*add as usize];
        }
    }
}

fn multiply(x: u32, y: u32) -> u8 {
    let mut product = 0;
    for bit in 0..6 {
        if y >> bit & 1 == 1 {
            product ^= x << bit;
        }
    }
    for bit in (6..12).rev() {
        if product >> bit & 1 == 1 {
            product ^= MODULUS << (bit - 6);
        }
    }
    product as u8
}
