//! A picture as text: shapes and words in SVG.

use std::fmt::{Arguments, Write as _};

pub const CENTRED: &str = "text-anchor=\"middle\"";
pub const END: &str = "text-anchor=\"end\"";
pub const BOLD: &str = "font-weight=\"bold\"";

pub struct Picture {
    width: u32,
    height: u32,
    /// The size to print at, as attributes.
    printed: String,
    shapes: String,
}

impl Picture {
    pub fn new(width: u32, height: u32) -> Self {
        let printed = format!("width=\"{width}\" height=\"{height}\"");
        Picture { width, height, printed, shapes: String::new() }
    }

    /// A sheet of paper, A4 upright, of four units a millimetre.
    pub fn a4() -> Self {
        let printed = "width=\"210mm\" height=\"297mm\"".to_string();
        Picture { width: 840, height: 1188, printed, shapes: String::new() }
    }

    pub fn shape(&mut self, shape: Arguments) {
        writeln!(self.shapes, "{shape}").expect("writing to a string does not fail");
    }

    pub fn text(&mut self, x: u32, y: u32, style: &str, text: &str) {
        self.shape(format_args!("<text x=\"{x}\" y=\"{y}\" {style}>{text}</text>"));
    }

    pub fn circle(&mut self, x: u32, y: u32, radius: u32, fill: &str, stroke: &str) {
        self.shape(format_args!(
            "<circle cx=\"{x}\" cy=\"{y}\" r=\"{radius}\" fill=\"{fill}\" stroke=\"{stroke}\"/>"
        ));
    }

    pub fn rectangle(&mut self, x: u32, y: u32, width: u32, height: u32, style: &str) {
        self.shape(format_args!(
            "<rect x=\"{x}\" y=\"{y}\" width=\"{width}\" height=\"{height}\" {style}/>"
        ));
    }

    pub fn path(&mut self, path: &str, style: &str) {
        self.shape(format_args!("<path d=\"{path}\" fill=\"none\" {style}/>"));
    }

    pub fn svg(&self) -> String {
        let Picture { width, height, printed, shapes } = self;
        format!(
            "<svg xmlns=\"http://www.w3.org/2000/svg\" {printed} viewBox=\"0 0 {width} {height}\" \
             font-family=\"sans-serif\" font-size=\"12\">\n\
             <rect width=\"{width}\" height=\"{height}\" fill=\"white\"/>\n{shapes}</svg>\n"
        )
    }
}
