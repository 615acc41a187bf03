//! A picture of red, green and blue that is painted pixel by pixel.

/// Red, green and blue.
pub type Colour = [u8; 3];

const BLACK: Colour = [0; 3];

/// The picture, black at first.
pub struct Canvas {
    pub width: usize,
    pub height: usize,
    pixels: Vec<Colour>,
}

impl Canvas {
    pub fn new(width: usize, height: usize) -> Canvas {
        Canvas { width, height, pixels: vec![BLACK; width * height] }
    }

    pub fn put(&mut self, x: usize, y: usize, colour: Colour) {
        self.pixels[y * self.width + x] = colour;
    }

    /// Fills a rectangle whose upper left corner is at x, y.
    pub fn fill(&mut self, (x, y): (usize, usize), (wide, high): (usize, usize), colour: Colour) {
        for row in self.pixels[y * self.width..][..high * self.width].chunks_mut(self.width) {
            row[x..x + wide].fill(colour);
        }
    }

    /// The bytes, row by row.
    pub fn bytes(&self) -> &[u8] {
        self.pixels.as_flattened()
    }
}
