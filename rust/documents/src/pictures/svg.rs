//! A small writer of SVG: shapes one upon the other on a white ground, which is as large as they
//! are. It refuses a picture whose texts overlap or leave it.

mod style;

pub use style::*;

use std::fmt::Write;

/// What is left free around all shapes.
pub const MARGIN: f64 = 24.0;

pub type Point = (f64, f64);

pub struct Picture {
    title: String,
    description: String,
    shapes: String,
    texts: Vec<Placed>,
    /// The right and the lower end of what is drawn.
    end: Point,
}

/// A text and the corners of the room that it takes.
struct Placed {
    words: String,
    from: Point,
    to: Point,
}

impl Picture {
    /// Title and description are for readers who cannot see it.
    pub fn new(title: &str, description: &str) -> Picture {
        Picture {
            title: title.into(),
            description: description.into(),
            shapes: String::new(),
            texts: Vec::new(),
            end: (0.0, 0.0),
        }
    }

    /// The title, and a line below it.
    pub fn heading(&mut self, words: &str) {
        self.text((MARGIN, MARGIN + 18.0), Anchor::Start, HEADING, &self.title.clone());
        self.text((MARGIN, MARGIN + 42.0), Anchor::Start, PLAIN, words);
    }

    /// The point is on the line that the letters stand on.
    pub fn text(&mut self, (x, y): Point, anchor: Anchor, font: Font, words: &str) {
        let width = text_width(font, words);
        let (name, left) = match anchor {
            Anchor::Start => ("start", x),
            Anchor::Middle => ("middle", x - width / 2.0),
            Anchor::End => ("end", x - width),
        };
        let from = (left, y - 0.8 * font.size);
        let to = (left + width, y + 0.22 * font.size);
        self.reach(to);
        self.texts.push(Placed { words: words.into(), from, to });
        let family = if font.mono { " font-family=\"monospace\"" } else { "" };
        let weight = if font.bold { " font-weight=\"bold\"" } else { "" };
        self.shape(format_args!(
            "<text x=\"{}\" y=\"{}\" font-size=\"{}\"{family}{weight} text-anchor=\"{name}\" \
             fill=\"{}\">{}</text>",
            number(x),
            number(y),
            number(font.size),
            font.fill,
            escaped(words)
        ));
    }

    pub fn rectangle(&mut self, (x, y): Point, size: Point, fill: &str, stroke: Stroke) {
        self.reach((x + size.0, y + size.1));
        self.shape(format_args!(
            "<rect x=\"{}\" y=\"{}\" width=\"{}\" height=\"{}\" fill=\"{fill}\"{}/>",
            number(x),
            number(y),
            number(size.0),
            number(size.1),
            attributes(stroke)
        ));
    }

    /// From point to point.
    pub fn line(&mut self, points: &[Point], stroke: Stroke) {
        let listed = self.listed(points);
        self.shape(format_args!(
            "<polyline points=\"{listed}\" fill=\"none\"{}/>",
            attributes(stroke)
        ));
    }

    pub fn polygon(&mut self, points: &[Point], fill: &str, stroke: Stroke) {
        let listed = self.listed(points);
        self.shape(format_args!(
            "<polygon points=\"{listed}\" fill=\"{fill}\"{}/>",
            attributes(stroke)
        ));
    }

    pub fn circle(&mut self, (x, y): Point, radius: f64, fill: &str) {
        self.reach((x + radius, y + radius));
        self.shape(format_args!(
            "<circle cx=\"{}\" cy=\"{}\" r=\"{}\" fill=\"{fill}\"/>",
            number(x),
            number(y),
            number(radius)
        ));
    }

    /// A line downwards that ends in a head.
    pub fn arrow(&mut self, points: &[Point], stroke: Stroke) {
        let Some(((x, y), others)) = points.split_last() else { return };
        let (half, long) = (3.0 + stroke.width, 6.0 + 1.5 * stroke.width);
        self.line(&[others, &[(*x, y - long)]].concat(), stroke);
        let head = [(x - half, y - long), (x + half, y - long), (*x, *y)];
        self.polygon(&head, stroke.colour, NONE);
    }

    /// The lower end of what is drawn so far.
    pub fn bottom(&self) -> f64 {
        self.end.1
    }

    /// The file, unless texts overlap or leave the picture.
    pub fn written(&self) -> Result<String, String> {
        self.check_texts()?;
        let (width, height) = (number(self.end.0 + MARGIN), number(self.end.1 + MARGIN));
        Ok(format!(
            "<svg xmlns=\"http://www.w3.org/2000/svg\" width=\"{width}\" height=\"{height}\" \
             viewBox=\"0 0 {width} {height}\" font-family=\"sans-serif\" role=\"img\">\n\
             <title>{}</title>\n<desc>{}</desc>\n\
             <rect width=\"{width}\" height=\"{height}\" fill=\"{WHITE}\"/>\n{}</svg>\n",
            escaped(&self.title),
            escaped(&self.description),
            self.shapes
        ))
    }

    fn check_texts(&self) -> Result<(), String> {
        for (place, text) in self.texts.iter().enumerate() {
            if text.from.0 < 0.0 || text.from.1 < 0.0 {
                return Err(format!("\"{}\" leaves the picture", text.words));
            }
            if let Some(other) = self.texts[..place].iter().find(|other| text.overlaps(other)) {
                return Err(format!("\"{}\" and \"{}\" overlap", other.words, text.words));
            }
        }
        Ok(())
    }

    fn shape(&mut self, shape: std::fmt::Arguments) {
        writeln!(self.shapes, "{shape}").expect("a string takes all");
    }

    fn listed(&mut self, points: &[Point]) -> String {
        points.iter().for_each(|point| self.reach(*point));
        let shown = |(x, y): &Point| format!("{},{}", number(*x), number(*y));
        points.iter().map(shown).collect::<Vec<_>>().join(" ")
    }

    fn reach(&mut self, (x, y): Point) {
        self.end = (self.end.0.max(x), self.end.1.max(y));
    }
}

impl Placed {
    fn overlaps(&self, other: &Placed) -> bool {
        let apart = self.to.0 <= other.from.0
            || other.to.0 <= self.from.0
            || self.to.1 <= other.from.1
            || other.to.1 <= self.from.1;
        !apart
    }
}

/// A tenth of a unit is finer than any screen shows.
fn number(x: f64) -> String {
    let shown = format!("{x:.1}");
    shown.strip_suffix(".0").unwrap_or(&shown).into()
}

fn attributes(stroke: Stroke) -> String {
    let Stroke { colour, width, dashes } = stroke;
    if width == 0.0 {
        return String::new();
    }
    let dashed = match dashes {
        "" => String::new(),
        _ => format!(" stroke-dasharray=\"{dashes}\""),
    };
    format!(" stroke=\"{colour}\" stroke-width=\"{}\"{dashed}", number(width))
}

fn escaped(words: &str) -> String {
    words.replace('&', "&amp;").replace('<', "&lt;").replace('>', "&gt;")
}

#[cfg(test)]
mod tests {
    use super::*;

    fn with_texts(texts: &[(f64, f64, &str)]) -> Result<String, String> {
        let mut picture = Picture::new("a < b", "a & b");
        for (x, y, words) in texts {
            picture.text((*x, *y), Anchor::Start, PLAIN, words);
        }
        picture.written()
    }

    #[test]
    fn texts_neither_overlap_nor_leave_the_picture() {
        assert!(with_texts(&[(0.0, 20.0, "layer"), (60.0, 20.0, "layer")]).is_ok());
        assert!(with_texts(&[(0.0, 20.0, "layer"), (20.0, 20.0, "layer")]).is_err());
        assert!(with_texts(&[(0.0, 20.0, "layer"), (0.0, 26.0, "coset")]).is_err());
        assert!(with_texts(&[(-1.0, 20.0, "layer")]).is_err());
        assert!(with_texts(&[(0.0, 5.0, "layer")]).is_err());
    }

    #[test]
    fn the_picture_is_as_large_as_its_shapes() {
        let mut picture = Picture::new("", "");
        picture.rectangle((10.0, 20.0), (30.5, 40.0), WHITE, THIN);
        picture.line(&[(0.0, 0.0), (5.0, 70.0)], THIN);
        let written = picture.written().unwrap();
        assert!(written.contains("width=\"64.5\" height=\"94\" viewBox=\"0 0 64.5 94\""));
    }

    #[test]
    fn words_are_escaped() {
        let written = with_texts(&[(0.0, 20.0, "1 < 2 & 3 > 2")]).unwrap();
        assert!(written.contains(">1 &lt; 2 &amp; 3 &gt; 2</text>"));
        assert!(written.contains("<title>a &lt; b</title>\n<desc>a &amp; b</desc>"));
    }
}
