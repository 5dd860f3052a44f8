//! Random numbers from a printed seed: splitmix64, and exact operations only, so
//! that the same seed gives the same bytes on every machine.

pub struct Random(u64);

pub type Vector = [f64; 3];

/// 2^k for any k from -1074 to 1023.
pub fn power(k: i64) -> f64 {
    if k < -1022 {
        f64::from_bits(1 << (k + 1074))
    } else {
        f64::from_bits(((k + 1023) as u64) << 52)
    }
}

/// x moved by a number of places among the doubles (x finite and not near zero).
pub fn nudge(x: f64, places: i64) -> f64 {
    f64::from_bits((x.to_bits() as i64 + places) as u64)
}

pub fn dot(a: Vector, b: Vector) -> f64 {
    a[0] * b[0] + a[1] * b[1] + a[2] * b[2]
}

pub fn cross(a: Vector, b: Vector) -> Vector {
    [a[1] * b[2] - a[2] * b[1], a[2] * b[0] - a[0] * b[2], a[0] * b[1] - a[1] * b[0]]
}

pub fn times(a: Vector, s: f64) -> Vector {
    a.map(|x| x * s)
}

pub fn plus(a: Vector, b: Vector) -> Vector {
    std::array::from_fn(|i| a[i] + b[i])
}

pub fn minus(a: Vector, b: Vector) -> Vector {
    std::array::from_fn(|i| a[i] - b[i])
}

pub fn unit(a: Vector) -> Vector {
    let length = dot(a, a).sqrt();
    a.map(|x| x / length)
}

/// A matrix by columns times a vector.
pub fn turn(m: &[Vector; 3], v: Vector) -> Vector {
    plus(plus(times(m[0], v[0]), times(m[1], v[1])), times(m[2], v[2]))
}

impl Random {
    pub fn new(seed: u64) -> Random {
        Random(seed)
    }

    pub fn word(&mut self) -> u64 {
        self.0 = self.0.wrapping_add(0x9E37_79B9_7F4A_7C15);
        let mut z = self.0;
        z = (z ^ (z >> 30)).wrapping_mul(0xBF58_476D_1CE4_E5B9);
        z = (z ^ (z >> 27)).wrapping_mul(0x94D0_49BB_1331_11EB);
        z ^ (z >> 31)
    }

    /// From 0 to n - 1.
    pub fn below(&mut self, n: u64) -> u64 {
        self.word() % n
    }

    pub fn chance(&mut self, n: u64) -> bool {
        self.below(n) == 0
    }

    pub fn index(&mut self) -> usize {
        self.below(3) as usize
    }

    /// A step among neighbouring doubles, of up to so many bits, either way.
    pub fn places(&mut self, bits: u64) -> i64 {
        let most = 1 << self.below(bits);
        self.between(1, most) * self.pick(&[1, -1])
    }

    /// A whole number from low to high.
    pub fn between(&mut self, low: i64, high: i64) -> i64 {
        low + self.below((high - low + 1) as u64) as i64
    }

    pub fn whole(&mut self, low: i64, high: i64) -> f64 {
        self.between(low, high) as f64
    }

    pub fn range(&mut self, low: f64, high: f64) -> f64 {
        low + (high - low) * ((self.word() >> 11) as f64 * power(-53))
    }

    pub fn sign(&mut self) -> f64 {
        if self.chance(2) { 1.0 } else { -1.0 }
    }

    /// Of a random magnitude: a number from 1 to 2 times a power of two.
    pub fn scaled(&mut self, low: i64, high: i64) -> f64 {
        self.range(1.0, 2.0) * power(self.between(low, high)) * self.sign()
    }

    pub fn bits(&mut self) -> f64 {
        f64::from_bits(self.word())
    }

    pub fn pick<T: Copy>(&mut self, list: &[T]) -> T {
        list[self.below(list.len() as u64) as usize]
    }

    /// Numbers at the edges of the format.
    pub fn special(&mut self) -> f64 {
        let x = self.pick(&[
            0.0,
            1.0,
            2.0,
            0.5,
            3.0,
            f64::MIN_POSITIVE,
            f64::MAX,
            f64::from_bits(1),
            f64::from_bits(0x000f_ffff_ffff_ffff),
            f64::EPSILON,
            1.0 + f64::EPSILON,
            1.0 - f64::EPSILON / 2.0,
            f64::INFINITY,
            f64::NAN,
            1e154,
            1e-154,
        ]);
        x * self.sign()
    }

    pub fn cube(&mut self) -> Vector {
        std::array::from_fn(|_| self.range(-1.0, 1.0))
    }

    pub fn direction(&mut self) -> Vector {
        loop {
            let v = self.cube();
            let length = dot(v, v);
            if (0.01..=1.0).contains(&length) {
                return unit(v);
            }
        }
    }

    /// A rotation by columns.
    pub fn rotation(&mut self) -> [Vector; 3] {
        let first = self.direction();
        loop {
            let other = self.direction();
            let normal = cross(first, other);
            if dot(normal, normal) > 0.01 {
                let third = unit(normal);
                return [first, cross(third, first), third];
            }
        }
    }
}
