//! Pictures as SVG. Of a publication: `history` follows its calls, `picture` draws them. Of its rounds: `report` takes the
//! lines that the program rounds prints, `chart` draws them. Of its bill: `bill` takes the lines that the program bill
//! prints, `bars` draws them.

pub mod bars;
pub mod bill;
pub mod chart;
pub mod history;
pub mod lines;
pub mod picture;
pub mod program;
pub mod report;
pub mod svg;
pub mod words;
