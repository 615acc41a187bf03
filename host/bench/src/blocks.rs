//! The time of a frame against the number of its blocks.

use crate::fault::{same_picture, Fault};
use crate::kind::{packets, MIX};
use crate::measure::timed;
use crate::program::{draw_second, draw_whole, zeros, Pictures, DRAW, SECOND};
use maker::{Packet, Size};
use std::time::Duration;

/// Columns and rows of blocks.
pub const SIZES: [(usize, usize); 10] =
    [(1, 1), (4, 3), (8, 6), (16, 12), (24, 18), (32, 24), (40, 30), (48, 36), (64, 48), (80, 60)];

/// Packets of a size: enough of the small ones that their codes are a mix, too.
fn packet_count(size: Size) -> usize {
    (4_800 / size.blocks()).clamp(4, 400)
}

/// A size and the time of its frames.
pub struct Point {
    /// The size.
    pub size: Size,
    /// Nanoseconds a frame.
    pub time: f64,
}

impl Point {
    /// Blocks of a frame.
    pub fn blocks(&self) -> f64 {
        self.size.blocks() as f64
    }
}

/// A straight line by least squares.
#[derive(Clone, Copy, Debug)]
pub struct Line {
    /// Nanoseconds of a frame beside its blocks.
    pub intercept: f64,
    /// Nanoseconds of a block.
    pub slope: f64,
}

impl Line {
    /// The line that the points are least far off, each distance taken as a part of the point's
    /// time: frames of one block and of thousands have the same say.
    pub fn through(points: &[Point]) -> Line {
        let sum = |of: &dyn Fn(f64, f64) -> f64| {
            points.iter().map(|p| of(p.blocks(), p.time) / (p.time * p.time)).sum::<f64>()
        };
        let total = sum(&|_, _| 1.0);
        let (middle_x, middle_y) = (sum(&|x, _| x) / total, sum(&|_, y| y) / total);
        let spread = sum(&|x, _| (x - middle_x).powi(2));
        let slope = sum(&|x, y| (x - middle_x) * (y - middle_y)) / spread;
        Line { intercept: middle_y - slope * middle_x, slope }
    }

    /// How far a point lies above the line, as a part of its time.
    pub fn off(self, point: &Point) -> f64 {
        1.0 - (self.intercept + self.slope * point.blocks()) / point.time
    }
}

/// The packets of a size.
pub struct Series {
    size: Size,
    packets: Vec<Packet>,
    pictures: Pictures,
    /// The least time of all packets.
    least: Duration,
}

impl Series {
    /// The mix in ten sizes, each frame drawn once and compared.
    pub fn all(seed: u64) -> Result<Vec<Series>, Fault> {
        let sizes = SIZES.map(|(columns, rows)| Size::new(columns, rows));
        sizes.into_iter().map(|size| Series::new(seed, size)).collect()
    }

    fn new(seed: u64, size: Size) -> Result<Series, Fault> {
        let packets = packets(MIX.sized(size), seed, packet_count(size));
        let mut pictures = zeros(size);
        compare(seed, size, &packets, &mut pictures)?;
        Ok(Series { size, packets, pictures, least: Duration::MAX })
    }

    /// Draws the packets some times more: the first time finds the caches full of other things.
    pub fn round(&mut self) {
        for _ in 0..3 {
            let (drawn, time) = timed(|| draw_all(&self.packets, &mut self.pictures));
            drawn.expect("packets that were drawn before");
            self.least = time.min(self.least);
        }
    }

    /// What the rounds up to now come to.
    pub fn point(&self) -> Point {
        let time = self.least.as_nanos() as f64 / self.packets.len() as f64;
        Point { size: self.size, time }
    }
}

fn draw_all(packets: &[Packet], pictures: &mut Pictures) -> Result<(), String> {
    for packet in packets {
        draw_whole(packet, pictures)?;
        pictures.swap();
    }
    Ok(())
}

fn compare(seed: u64, size: Size, packets: &[Packet], ours: &mut Pictures) -> Result<(), Fault> {
    let mut theirs = ours.clone();
    for (number, packet) in packets.iter().enumerate() {
        let (columns, rows) = (size.columns, size.rows);
        let frame = format!("seed {seed}, mix of {columns}x{rows} blocks, frame {number}");
        draw_whole(packet, ours).map_err(|why| Fault::not_taken(&frame, DRAW, why))?;
        draw_second(packet, &mut theirs).map_err(|why| Fault::not_taken(&frame, SECOND, why))?;
        same_picture(&frame, size, (DRAW, &ours.back), (SECOND, &theirs.back))?;
        ours.swap();
        theirs.swap();
    }
    Ok(())
}

#[cfg(test)]
mod tests {
    use super::*;

    fn points(of: &[(usize, f64)]) -> Vec<Point> {
        of.iter().map(|&(blocks, time)| Point { size: Size::new(blocks, 1), time }).collect()
    }

    fn near(one: f64, other: f64) -> bool {
        (one - other).abs() < 1e-9
    }

    #[test]
    fn lines() {
        let exact = points(&[(1, 5.0), (2, 7.0), (10, 23.0)]);
        let line = Line::through(&exact);
        assert!(near(line.slope, 2.0) && near(line.intercept, 3.0), "{line:?}");
        assert!(exact.iter().all(|point| near(line.off(point), 0.0)));
        assert!(near(line.off(&points(&[(1, 10.0)])[0]), 0.5));
        // Of two times at one size, 1 has four times the weight of 2.
        let level = Line::through(&points(&[(1, 1.2), (2, 1.0), (2, 2.0), (3, 1.2)]));
        assert!(near(level.slope, 0.0) && near(level.intercept, 1.2), "{level:?}");
    }
}
