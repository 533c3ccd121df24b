//! The picture of a bill: a row for each ward, with its pence and a bar for its weight.

use crate::bill::{Bill, Ward};
use crate::svg::{Anchor, Svg};
use crate::words::{grouped, shortened};

/// The rows' top and height; where the wards' names and the pence end; the bars' left edge, length and height; the picture's
/// width.
const TOP: i64 = 96;
const ROW: i64 = 24;
const NAME: i64 = 92;
const PENCE: i64 = 220;
const LEFT: i64 = 272;
const LONGEST: i64 = 460;
const BAR: i64 = 14;
const EDGE: i64 = 16;
const WIDTH: i64 = LEFT + LONGEST + 96;

const DARK: &str = "fill=\"#222222\"";
const GREY: &str = "fill=\"#666666\"";
const BOLD: &str = "fill=\"#222222\" font-weight=\"bold\"";
const BAND: &str = "fill=\"#f4f4f1\"";
const AXIS: &str = "stroke=\"#666666\" stroke-width=\"1\"";
const WEIGHT: &str = "fill=\"#005b96\"";
const REMAINING: &str = "fill=\"#9a5b00\"";

pub fn draw(name: &str, bill: &Bill) -> String {
    let mut svg = Svg::new();
    draw_title(&mut svg, name, bill);
    draw_heads(&mut svg);
    let heaviest = bill.wards.iter().map(|ward| ward.weight).max();
    for (row, ward) in bill.wards.iter().enumerate() {
        draw_ward(&mut svg, bill, heaviest.unwrap_or(1), row, ward);
    }
    let y = draw_sums(&mut svg, bill, TOP + bill.wards.len() as i64 * ROW);
    let y = draw_legend(&mut svg, bill, y + 28);
    svg.finish(WIDTH, y)
}

fn draw_title(svg: &mut Svg, name: &str, bill: &Bill) {
    let title = format!("Bill for publication {}", shortened(name));
    svg.text(EDGE, 30, 18, Anchor::Start, BOLD, &title);
    let pence = counted(bill.pence(), "penny", "pence");
    let words = match bill.wards.len() {
        1 => format!("{pence}; one ward pays all of it"),
        wards => format!("{pence}, shared among {wards} wards in proportion to their weights"),
    };
    svg.text(EDGE, 50, 13, Anchor::Start, GREY, &words);
}

fn draw_heads(svg: &mut Svg) {
    svg.text(NAME, TOP - 10, 12, Anchor::End, BOLD, "ward");
    svg.text(PENCE, TOP - 10, 12, Anchor::End, BOLD, "pence");
    svg.text(LEFT, TOP - 10, 12, Anchor::Start, BOLD, "weight");
    svg.line(EDGE, TOP, WIDTH - EDGE, TOP, AXIS);
}

/// The length of a bar, to the nearest, where the heaviest ward has the longest; none is too short to be seen.
fn length(weight: u64, heaviest: u64) -> i64 {
    let (weight, heaviest) = (weight as i128, heaviest as i128);
    let length = (2 * LONGEST as i128 * weight + heaviest) / (2 * heaviest);
    (length as i64).max(1)
}

/// Each second row has a band, which leads from the ward to its bar.
fn draw_ward(svg: &mut Svg, bill: &Bill, heaviest: u64, row: usize, ward: &Ward) {
    let y = TOP + row as i64 * ROW;
    let remaining = bill.pays_remaining(ward);
    svg.open(&format!(
        "job {}: weight {} of {}, {} of {} pence{}",
        ward.number,
        grouped(ward.weight),
        grouped(bill.weight()),
        grouped(ward.pence),
        grouped(bill.pence()),
        if remaining {
            ", one of them remaining"
        } else {
            ""
        }
    ));
    if row % 2 == 1 {
        svg.rect(EDGE, y, WIDTH - 2 * EDGE, ROW, BAND);
    }
    let line = y + ROW / 2 + 4;
    let job = format!("job {}", ward.number);
    svg.text(NAME, line, 12, Anchor::End, DARK, &job);
    svg.text(PENCE, line, 12, Anchor::End, DARK, &grouped(ward.pence));
    if remaining {
        svg.text(PENCE + 8, line, 11, Anchor::Start, REMAINING, "+1");
    }
    let bar = length(ward.weight, heaviest);
    svg.rect(LEFT, y + (ROW - BAR) / 2, bar, BAR, WEIGHT);
    let weight = grouped(ward.weight);
    svg.text(LEFT + bar + 6, line, 11, Anchor::Start, DARK, &weight);
    svg.close();
}

fn draw_sums(svg: &mut Svg, bill: &Bill, y: i64) -> i64 {
    svg.line(EDGE, y, WIDTH - EDGE, y, AXIS);
    let line = y + 18;
    let wards = counted(bill.wards.len() as u64, "ward", "wards");
    svg.text(NAME, line, 12, Anchor::End, BOLD, &wards);
    svg.text(PENCE, line, 12, Anchor::End, BOLD, &grouped(bill.pence()));
    let weight = grouped(bill.weight());
    svg.text(LEFT, line, 12, Anchor::Start, BOLD, &weight);
    y + 28
}

fn draw_legend(svg: &mut Svg, bill: &Bill, y: i64) -> i64 {
    let mut say = |y: i64, words: &str| svg.text(EDGE + 32, y, 11, Anchor::Start, DARK, words);
    say(
        y,
        "weight of the ward's block: its own, and that of all jobs below it; job 0's own is not shared",
    );
    let remaining = bill.remaining();
    let (pence, goes, remainders) = match remaining {
        1 => ("the penny that remains".to_string(), "it goes", "remainder"),
        _ => (
            format!("one of the {remaining} pence that remain"),
            "they go",
            "remainders",
        ),
    };
    if remaining > 0 {
        say(
            y + 20,
            &format!("with {pence} where all shares are rounded down: {goes} to the largest"),
        );
        say(
            y + 36,
            &format!("{remainders}, the lower number first among equals"),
        );
    }
    svg.rect(EDGE, y - 9, 22, 10, WEIGHT);
    if remaining == 0 {
        return y + 18;
    }
    svg.text(EDGE + 2, y + 20, 11, Anchor::Start, REMAINING, "+1");
    y + 54
}

fn counted(number: u64, one: &str, more: &str) -> String {
    let noun = if number == 1 { one } else { more };
    format!("{} {noun}", grouped(number))
}

#[cfg(test)]
mod tests {
    use super::*;
    use crate::bill::{parse, MOST_WARDS};

    /// The example bill: five equal wards and two others share 12,000 pence.
    fn example() -> Bill {
        let equal: String = (1..=5)
            .map(|job| format!("job {job} weight 31 pence {}\n", 1215 + (job <= 3) as u64))
            .collect();
        let others = "job 6 weight 129 pence 5059\njob 14 weight 22 pence 863\n";
        parse(&format!("{equal}{others}wards 7 weight 306 pence 12000\n")).unwrap()
    }

    /// As many wards as there can be, all equal, and so large a bill that the first has a penny more.
    fn most() -> Bill {
        let mut text = String::new();
        for job in 1..=MOST_WARDS {
            let pence = 33818640 + (job == 1) as u64;
            text.push_str(&format!("job {job} weight 3000 pence {pence}\n"));
        }
        parse(&format!("{text}wards 127 weight 381000 pence 4294967281\n")).unwrap()
    }

    /// One ward, and a bill of so many pence.
    fn one(pence: u64) -> Bill {
        let sums = format!("weight 7 pence {pence}\n");
        parse(&format!("job 127 {sums}wards 1 {sums}")).unwrap()
    }

    /// The elements in which this stands.
    fn with<'a>(svg: &'a str, part: &str) -> Vec<&'a str> {
        svg.lines().filter(|line| line.contains(part)).collect()
    }

    fn number(element: &str, attribute: &str) -> i64 {
        let behind = element.split(&format!(" {attribute}=\"")).nth(1).unwrap();
        behind.split('"').next().unwrap().parse().unwrap()
    }

    #[test]
    fn lengths_of_bars() {
        assert_eq!(length(129, 129), LONGEST);
        // 460 * 31 / 129 is 110.5, 460 * 22 / 129 is 78.4
        assert_eq!((length(31, 129), length(22, 129)), (111, 78));
        assert_eq!((length(1, 920), length(1, 100000)), (1, 1));
        assert_eq!(length(u64::MAX, u64::MAX), LONGEST);
    }

    /// Each ward's bar stands in its row; the last one is the legend's.
    #[test]
    fn bars_stand_where_they_must() {
        for bill in [example(), most(), one(5)] {
            let svg = draw("x", &bill);
            let bars = with(&svg, WEIGHT);
            assert_eq!(bars.len(), bill.wards.len() + 1);
            let heaviest = bill.wards.iter().map(|ward| ward.weight).max().unwrap();
            for (row, ward) in bill.wards.iter().enumerate() {
                let place = (number(bars[row], "x"), number(bars[row], "y"));
                assert_eq!(place, (LEFT, TOP + 24 * row as i64 + 5));
                let bar = number(bars[row], "width");
                assert_eq!(bar, length(ward.weight, heaviest));
            }
        }
        let svg = draw("x", &example());
        let bars: Vec<i64> = with(&svg, WEIGHT)
            .into_iter()
            .map(|bar| number(bar, "width"))
            .collect();
        assert_eq!(bars, [111, 111, 111, 111, 111, 460, 78, 22]);
    }

    /// The ward, its pence and its weight on one line, each ward's in another.
    #[test]
    fn rows_have_their_numbers() {
        let svg = draw("x", &example());
        for (row, (job, pence, weight)) in [
            (0, ("job 1", "1,216", "31")),
            (3, ("job 4", "1,215", "31")),
            (5, ("job 6", "5,059", "129")),
            (6, ("job 14", "863", "22")),
        ] {
            let line = format!(" y=\"{}\"", TOP + 24 * row + 16);
            for text in [job, pence, weight] {
                let texts = with(&svg, &format!(">{text}</text>"));
                let here = texts.iter().filter(|text| text.contains(&line)).count();
                assert_eq!(here, 1, "{text}");
            }
        }
        let title =
            "<title>job 6: weight 129 of 306, 5,059 of 12,000 pence, one of them remaining</title>";
        assert!(svg.contains(title));
        assert!(svg.contains("<title>job 5: weight 31 of 306, 1,215 of 12,000 pence</title>"));
    }

    #[test]
    fn the_sums() {
        let svg = draw("x", &example());
        for (text, x) in [("7 wards", NAME), ("12,000", PENCE), ("306", LEFT)] {
            let texts = with(&svg, &format!(">{text}</text>"));
            assert_eq!(texts.len(), 1, "{text}");
            let place = (number(texts[0], "x"), number(texts[0], "y"));
            assert_eq!(place, (x, TOP + 7 * 24 + 18));
        }
        assert!(draw("x", &one(5)).contains(">1 ward</text>"));
    }

    /// A mark for each remaining penny, and one in the legend where there are any.
    #[test]
    fn remaining_pence_are_marked() {
        let rows = |bill: &Bill| -> Vec<i64> {
            let svg = draw("x", bill);
            let marks = with(&svg, ">+1</text>");
            marks
                .iter()
                .map(|mark| (number(mark, "y") - TOP) / 24)
                .collect()
        };
        let marked = rows(&example());
        assert_eq!((marked.len(), &marked[..5]), (6, &[0, 1, 2, 5, 6][..]));
        assert_eq!(rows(&most())[..1], [0]);
        assert_eq!(rows(&most()).len(), 2);
        assert!(rows(&one(5)).is_empty());
        assert!(draw("x", &example()).contains(">with one of the 5 pence that remain where"));
        assert!(draw("x", &most()).contains(">remainder, the lower number"));
        assert!(draw("x", &most()).contains(">with the penny that remains where"));
        assert!(!draw("x", &one(5)).contains("remain"));
    }

    /// All stands within the picture, whatever the number of wards.
    #[test]
    fn the_picture_is_high_enough() {
        for (bill, height) in [(example(), 374), (most(), 3254), (one(5), 194)] {
            let svg = draw("x", &bill);
            assert_eq!(number(&svg, "height"), height);
            for text in with(&svg, "<text ") {
                assert!((20..=height - 12).contains(&number(text, "y")), "{text}");
            }
        }
    }

    #[test]
    fn the_title() {
        let svg = draw("a<b>&\"c\u{1}", &example());
        assert!(svg.contains(">Bill for publication a&lt;b&gt;&amp;&quot;c?</text>"));
        assert!(svg
            .contains(">12,000 pence, shared among 7 wards in proportion to their weights</text>"));
        let long = "n".repeat(41);
        assert!(draw(&long, &one(0))
            .contains(&format!(">Bill for publication {}\u{2026}<", &long[..39])));
        assert!(draw("x", &one(0)).contains(">0 pence; one ward pays all of it</text>"));
        assert!(draw("x", &one(1)).contains(">1 penny; one ward pays all of it</text>"));
    }
}
