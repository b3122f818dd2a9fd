//! A drawing in SVG.
use std::fmt::Write;

/// A place, in pixels from the upper left corner.
#[derive(Clone, Copy, Debug, PartialEq)]
pub struct Point {
    pub x: f64,
    pub y: f64,
}

pub fn at(x: f64, y: f64) -> Point {
    Point { x, y }
}

/// Where a text stands from its place on.
#[derive(Clone, Copy)]
pub enum Anchor {
    Start,
    Middle,
    End,
}

/// A text's size in pixels, its colour and its anchor.
#[derive(Clone, Copy)]
pub struct Type {
    pub size: f64,
    pub colour: &'static str,
    pub bold: bool,
    pub anchor: Anchor,
}

impl Type {
    pub fn new(size: f64, anchor: Anchor) -> Type {
        Type {
            size,
            colour: "#111111",
            bold: false,
            anchor,
        }
    }

    pub fn bold(self) -> Type {
        Type { bold: true, ..self }
    }

    pub fn in_colour(self, colour: &'static str) -> Type {
        Type { colour, ..self }
    }
}

/// A line's colour and its width.
#[derive(Clone, Copy)]
pub struct Stroke {
    pub colour: &'static str,
    pub width: f64,
}

impl Stroke {
    pub fn new(colour: &'static str, width: f64) -> Stroke {
        Stroke { colour, width }
    }

    fn attributes(self) -> String {
        let Stroke { colour, width } = self;
        format!(r#"stroke="{colour}" stroke-width="{width}""#)
    }
}

/// The elements drawn so far, the last on top.
pub struct Drawing {
    width: f64,
    height: f64,
    elements: String,
}

impl Drawing {
    /// An empty drawing on white, so that it can be read on a dark page too.
    pub fn new(width: f64, height: f64) -> Drawing {
        let mut drawing = Drawing {
            width,
            height,
            elements: String::new(),
        };
        drawing.element(format!(
            r##"<rect width="{width}" height="{height}" fill="#ffffff"/>"##
        ));
        drawing
    }

    fn element(&mut self, element: String) {
        writeln!(self.elements, "{element}").expect("a String takes any text");
    }

    pub fn line(&mut self, from: Point, to: Point, stroke: Stroke) {
        let places = format!("{:.1},{:.1} {:.1},{:.1}", from.x, from.y, to.x, to.y);
        let stroke = stroke.attributes();
        self.element(format!(
            r#"<polyline points="{places}" fill="none" {stroke}/>"#
        ));
    }

    pub fn circle(&mut self, centre: Point, radius: f64, fill: &str, stroke: Stroke) {
        let Point { x, y } = centre;
        let stroke = stroke.attributes();
        self.element(format!(
            r#"<circle cx="{x:.1}" cy="{y:.1}" r="{radius}" fill="{fill}" {stroke}/>"#
        ));
    }

    /// A line of text on a base line; none of the texts has a letter that SVG reserves.
    pub fn text(&mut self, place: Point, text: &str, kind: Type) {
        let anchor = match kind.anchor {
            Anchor::Start => "start",
            Anchor::Middle => "middle",
            Anchor::End => "end",
        };
        let weight = if kind.bold {
            r#" font-weight="bold""#
        } else {
            ""
        };
        let Point { x, y } = place;
        let Type { size, colour, .. } = kind;
        self.element(format!(
            r#"<text x="{x:.1}" y="{y:.1}" font-size="{size}"{weight} fill="{colour}" text-anchor="{anchor}">{text}</text>"#
        ));
    }

    pub fn finish(self) -> String {
        let Drawing {
            width,
            height,
            elements,
        } = self;
        format!(
            r#"<svg xmlns="http://www.w3.org/2000/svg" width="{width}" height="{height}" viewBox="0 0 {width} {height}" font-family="Helvetica, Arial, 'DejaVu Sans', sans-serif">
{elements}</svg>
"#
        )
    }
}
