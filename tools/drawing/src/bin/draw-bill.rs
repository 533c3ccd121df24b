//! draw-bill NAME: a picture of the bill of a publication of this name on standard output, as SVG. Standard input has the
//! lines that the program bill prints.

use drawing::{bars, bill, program};

fn main() {
    program::run("draw-bill", |name, text| {
        Ok(bars::draw(name, &bill::parse(text)?))
    })
}
