//! Colours, fonts and strokes, and how wide words are.

pub const INK: &str = "#1c1c1c";
pub const GREY: &str = "#5e5e5e";
pub const PALE: &str = "#d8d8d8";
pub const WHITE: &str = "#ffffff";
pub const MARK: &str = "#b03a00";
pub const SHADE: &str = "#fde9d3";
pub const BAND: &str = "#eef1f5";

#[derive(Clone, Copy)]
pub struct Font {
    pub size: f64,
    pub bold: bool,
    pub mono: bool,
    pub fill: &'static str,
}

pub const PLAIN: Font = Font { size: 13.0, bold: false, mono: false, fill: INK };
pub const NOTE: Font = Font { size: 12.0, fill: GREY, ..PLAIN };
pub const BOLD: Font = Font { bold: true, ..PLAIN };
pub const HEADING: Font = Font { size: 18.0, ..BOLD };
pub const MONO: Font = Font { mono: true, ..PLAIN };

/// The side of a text that its point is on.
#[derive(Clone, Copy)]
pub enum Anchor {
    Start,
    Middle,
    End,
}

#[derive(Clone, Copy)]
pub struct Stroke {
    pub colour: &'static str,
    pub width: f64,
    /// The lengths of dashes and gaps, or nothing for a line without gaps.
    pub dashes: &'static str,
}

pub const THIN: Stroke = Stroke { colour: GREY, width: 1.2, dashes: "" };
pub const THICK: Stroke = Stroke { colour: MARK, width: 4.5, dashes: "" };
pub const NONE: Stroke = Stroke { colour: "none", width: 0.0, dashes: "" };

/// An estimate from wide fonts: no viewer has the same ones, and most are narrower.
pub fn text_width(font: Font, words: &str) -> f64 {
    let letter = |letter| match letter {
        _ if font.mono => 0.61,
        'm' | 'w' | 'M' | 'W' => 0.98,
        'f' | 'i' | 'j' | 'l' | 'r' | 't' | 'I' | ' ' | ',' | '.' | ':' | ';' | '\'' => 0.42,
        _ => 0.65,
    };
    let bold = if font.bold && !font.mono { 1.1 } else { 1.0 };
    words.chars().map(letter).sum::<f64>() * font.size * bold
}

/// The width of the widest.
pub fn widest<'a>(font: Font, texts: impl IntoIterator<Item = &'a String>) -> f64 {
    texts.into_iter().map(|words| text_width(font, words)).fold(0.0, f64::max)
}
