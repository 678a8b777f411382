//! The fields of 8, 9, 16, 25, 27, 32 and 49 elements: an element is a row of digits, the lowest first, and its number is these digits packed. Sums are
//! taken digit by digit, products by multiplying out polynomials. No table is used.

/// A field: its prime, and the digits of x to the power of their number, which reduce a product. Any irreducible polynomial gives a field.
pub struct Field {
    prime: usize,
    top: &'static [usize],
}

/// The powers of primes, not primes themselves, from 8 to 50: x³ = x + 1, x² = 2x + 1, x⁴ = x + 1, x² = 4x + 3, x³ = x + 2, x⁵ = x² + 1, x² = 6x + 4.
const FIELDS: [Field; 7] = [
    Field { prime: 2, top: &[1, 1, 0] },
    Field { prime: 3, top: &[1, 2] },
    Field { prime: 2, top: &[1, 1, 0, 0] },
    Field { prime: 5, top: &[3, 4] },
    Field { prime: 3, top: &[2, 1, 0] },
    Field { prime: 2, top: &[1, 0, 1, 0, 0] },
    Field { prime: 7, top: &[4, 6] },
];

/// The numbers of elements of these fields.
pub const SIZES: [u8; 7] = [8, 9, 16, 25, 27, 32, 49];

impl Field {
    /// The field of so many elements, if there is one.
    pub fn of(elements: usize) -> Option<&'static Field> {
        FIELDS.iter().find(|field| field.elements() == elements)
    }

    pub fn elements(&self) -> usize {
        self.top.iter().fold(1, |product, _| product * self.prime)
    }

    fn digits(&self, mut number: usize) -> Vec<usize> {
        let mut digits = Vec::new();
        for _ in self.top {
            digits.push(number % self.prime);
            number /= self.prime;
        }
        digits
    }

    fn number(&self, digits: &[usize]) -> usize {
        digits.iter().rev().fold(0, |number, digit| number * self.prime + digit % self.prime)
    }

    pub fn sum(&self, x: usize, y: usize) -> usize {
        let digits: Vec<usize> = self.digits(x).iter().zip(self.digits(y)).map(|(a, b)| a + b).collect();
        self.number(&digits)
    }

    pub fn product(&self, x: usize, y: usize) -> usize {
        let (x, y, length) = (self.digits(x), self.digits(y), self.top.len());
        let mut digits = vec![0; 2 * length];
        for (i, a) in x.iter().enumerate() {
            for (j, b) in y.iter().enumerate() {
                digits[i + j] += a * b;
            }
        }
        for place in (length..2 * length).rev() {
            let over = digits[place] % self.prime;
            self.top.iter().enumerate().for_each(|(i, digit)| digits[place - length + i] += over * digit);
        }
        self.number(&digits[..length])
    }

    /// x to a power, x being the prime's own number.
    pub fn power(&self, power: usize) -> usize {
        (0..power).fold(1, |product, _| self.product(product, self.prime))
    }

    /// One of each two opposite elements that are not 0; where each is its own opposite, all of them.
    pub fn half(&self) -> Vec<usize> {
        (1..self.elements()).filter(|x| (1..=*x).all(|y| self.sum(*x, y) != 0 || y == *x)).collect()
    }
}
