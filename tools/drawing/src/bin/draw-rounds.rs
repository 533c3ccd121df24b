//! draw-rounds NAME: a picture of the rounds of a publication of this name on standard output, as SVG. Standard input has the
//! lines that the program rounds prints.

use drawing::{chart, program, report};

fn main() {
    program::run("draw-rounds", |name, text| {
        Ok(chart::draw(name, &report::parse(text)?))
    })
}
