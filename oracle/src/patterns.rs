//! Sample patterns: what planes and windows are filled with.

use crate::rng::Rng;

#[derive(Clone, Copy, Debug, PartialEq, Eq)]
pub enum Pattern {
    /// One sample everywhere.
    Flat,
    /// Two samples in turn, across and down.
    Board,
    /// One sample that differs.
    Dot,
    /// Two samples by column.
    Columns,
    /// Two samples by row.
    Rows,
    /// Two samples at random.
    Either,
    /// A tilted plane, wrapped at the ends of the range.
    Gradient,
    /// A little off one sample.
    Noise,
    /// Anything.
    Random,
}

pub const ALL: [Pattern; 9] = [
    Pattern::Flat,
    Pattern::Board,
    Pattern::Dot,
    Pattern::Columns,
    Pattern::Rows,
    Pattern::Either,
    Pattern::Gradient,
    Pattern::Noise,
    Pattern::Random,
];

/// Any pattern. Noise comes up more often: with it the self-guided filter has work to do, while
/// full contrast leaves it at the sample it found.
pub fn any(rng: &mut Rng) -> Pattern {
    match rng.below(8) {
        0 => Pattern::Random,
        1 | 2 => Pattern::Noise,
        _ => rng.pick(&ALL),
    }
}

/// A plane of `width` by `height` samples from 0 to `largest`.
pub fn fill(
    rng: &mut Rng,
    pattern: Pattern,
    width: usize,
    height: usize,
    largest: i32,
) -> Vec<i32> {
    let look = Look::pick(rng, width, height, largest);
    let mut samples = Vec::with_capacity(width * height);
    for y in 0..height {
        for x in 0..width {
            samples.push(look.sample(rng, pattern, x, y));
        }
    }
    samples
}

/// The other stage of the same picture: equal, a little off, or something else altogether.
pub fn related(rng: &mut Rng, plane: &[i32], width: usize, largest: i32) -> Vec<i32> {
    match rng.below(5) {
        0 => plane.to_vec(),
        1 | 2 => {
            let reach = 1 + largest / 64;
            let near = |&sample: &i32| (sample + rng.between(-reach, reach)).clamp(0, largest);
            plane.iter().map(near).collect()
        }
        _ => {
            let pattern = any(rng);
            fill(rng, pattern, width, plane.len() / width, largest)
        }
    }
}

/// The choices that hold for a whole plane.
struct Look {
    largest: i32,
    /// The two samples of a pattern that has two.
    two: [i32; 2],
    dot: (usize, usize),
    period: usize,
    slope: (i32, i32),
    base: i32,
    reach: i32,
}

impl Look {
    fn pick(rng: &mut Rng, width: usize, height: usize, largest: i32) -> Self {
        let base = rng.between(0, largest);
        let reach = rng.pick(&[1, 2, 4, 9, 20, 40, 70]) * (largest + 1) / 256;
        Look {
            largest,
            two: two_samples(rng, base, reach, largest),
            dot: (rng.below(width as u32) as usize, rng.below(height as u32) as usize),
            period: rng.between(1, 4) as usize,
            slope: (rng.between(-9, 9), rng.between(-9, 9)),
            base,
            reach,
        }
    }

    fn sample(&self, rng: &mut Rng, pattern: Pattern, x: usize, y: usize) -> i32 {
        match pattern {
            Pattern::Flat => self.two[0],
            Pattern::Board => self.two[(x + y) % 2],
            Pattern::Dot => self.two[usize::from((x, y) == self.dot)],
            Pattern::Columns => self.two[x / self.period % 2],
            Pattern::Rows => self.two[y / self.period % 2],
            Pattern::Either => rng.pick(&self.two),
            Pattern::Gradient => self.slanted(x, y),
            Pattern::Noise => near(rng, self.base, self.reach, self.largest),
            Pattern::Random => rng.between(0, self.largest),
        }
    }

    /// A plane that tilts, with wrapped values so that it also has cliffs.
    fn slanted(&self, x: usize, y: usize) -> i32 {
        let tilt = self.slope.0 * x as i32 + self.slope.1 * y as i32;
        (self.base + tilt * (self.largest + 1) / 256).rem_euclid(self.largest + 1)
    }
}

/// Both ends of the range, either way round, or two samples with little between them.
fn two_samples(rng: &mut Rng, base: i32, reach: i32, largest: i32) -> [i32; 2] {
    match rng.below(4) {
        0 => [0, largest],
        1 => [largest, 0],
        _ => [base, near(rng, base, reach, largest)],
    }
}

fn near(rng: &mut Rng, base: i32, reach: i32, largest: i32) -> i32 {
    (base + rng.between(-reach, reach)).clamp(0, largest)
}
