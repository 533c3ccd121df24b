//! The picture of a report: the rounds over the number of workers, with the two lower bounds.

use crate::report::{Report, MOST_WORKERS};
use crate::svg::{Anchor, Svg};
use crate::words::{grouped, shortened};

/// The plot's edges, the distance from one number of workers to the next, and the whole picture's width.
const LEFT: i64 = 76;
const TOP: i64 = 112;
const BOTTOM: i64 = 412;
const PITCH: i64 = 44;
const RIGHT: i64 = LEFT + MOST_WORKERS as i64 * PITCH;
const WIDTH: i64 = RIGHT + 104;
/// The most distances between ticks.
const MOST_STEPS: u64 = 7;
/// The curve's points from one number of workers to the next.
const PIECES: i64 = 8;

const DARK: &str = "fill=\"#222222\"";
const GREY: &str = "fill=\"#666666\"";
const BOLD: &str = "fill=\"#222222\" font-weight=\"bold\"";
/// Dark on a white edge, which parts it from a line of the grid.
const NUMBER: &str =
    "fill=\"#222222\" stroke=\"#ffffff\" stroke-width=\"3\" paint-order=\"stroke\"";
const GRID: &str = "stroke=\"#e4e4e4\" stroke-width=\"1\"";
const AXIS: &str = "stroke=\"#666666\" stroke-width=\"1\"";
const ROUNDS: &str = "fill=\"#005b96\"";
const SPAN: &str = "stroke=\"#c77700\" stroke-width=\"2\"";
const SHARE: &str = "stroke=\"#6f4a8e\" stroke-width=\"2\" stroke-dasharray=\"6 4\"";
const ENOUGH: &str = "stroke=\"#007a5a\" stroke-width=\"2\" stroke-dasharray=\"2 3\"";

/// The axis of rounds, from 0 on: a tick at each step, the last at or above all values.
#[derive(Clone, Copy, Debug, PartialEq, Eq)]
pub struct Axis {
    pub step: u64,
    pub last: u64,
}

impl Axis {
    /// The least step of 1, 2 or 5 times a power of ten with which a few ticks reach the value.
    pub fn up_to(most: u64) -> Axis {
        let powers = std::iter::successors(Some(1), |power| Some(power * 10));
        let mut steps = powers.flat_map(|power| [power, 2 * power, 5 * power]);
        let step = steps
            .find(|step| most.div_ceil(*step) <= MOST_STEPS)
            .unwrap_or(most);
        Axis {
            step,
            last: step * most.div_ceil(step).max(1),
        }
    }

    pub fn ticks(&self) -> Vec<u64> {
        (0..=self.last / self.step).map(|i| i * self.step).collect()
    }

    /// The height of a value's place, `value / parts`, in parts of a pixel, to the nearest.
    fn place(&self, value: u64, parts: u64, pixel: u64) -> i64 {
        let height = (BOTTOM - TOP) as u64 * pixel;
        let divisor = self.last * parts;
        BOTTOM * pixel as i64 - ((2 * height * value + divisor) / (2 * divisor)) as i64
    }

    fn y(&self, value: u64) -> i64 {
        self.place(value, 1, 1)
    }
}

/// The place of a number of workers.
fn x_of(workers: usize) -> i64 {
    LEFT + PITCH / 2 + (workers as i64 - 1) * PITCH
}

pub fn draw(name: &str, report: &Report) -> String {
    let axis = Axis::up_to(report.calls);
    let mut svg = Svg::new();
    draw_title(&mut svg, name, report);
    draw_axes(&mut svg, axis, report);
    draw_bounds(&mut svg, axis, report);
    draw_enough(&mut svg, report);
    draw_points(&mut svg, axis, report);
    let y = draw_legend(&mut svg, report, BOTTOM + 66);
    svg.finish(WIDTH, y)
}

fn draw_title(svg: &mut Svg, name: &str, report: &Report) {
    let title = format!(
        "Publication {}: {} calls, span {}",
        shortened(name),
        grouped(report.calls),
        grouped(report.span)
    );
    svg.text(16, 30, 18, Anchor::Start, BOLD, &title);
    let words = match report.enough {
        Some(1) => "rounds with 1 to 16 workers; 1 worker is enough".to_string(),
        Some(workers) => format!("rounds with 1 to 16 workers; {workers} workers are enough"),
        None => {
            "rounds with 1 to 16 workers; more would be needed to come down to the span".to_string()
        }
    };
    svg.text(16, 50, 13, Anchor::Start, GREY, &words);
}

fn draw_axes(svg: &mut Svg, axis: Axis, report: &Report) {
    for tick in axis.ticks() {
        let y = axis.y(tick);
        svg.line(LEFT, y, RIGHT, y, if tick == 0 { AXIS } else { GRID });
        svg.text(LEFT - 8, y + 4, 11, Anchor::End, GREY, &grouped(tick));
    }
    svg.line(LEFT, TOP, LEFT, BOTTOM, AXIS);
    svg.text(LEFT - 8, TOP - 16, 12, Anchor::End, BOLD, "rounds");
    svg.text(LEFT - 8, BOTTOM + 19, 12, Anchor::End, BOLD, "workers");
    svg.text(LEFT - 8, BOTTOM + 38, 11, Anchor::End, GREY, "used");
    for workers in 1..=MOST_WORKERS {
        let x = x_of(workers);
        svg.line(x, BOTTOM, x, BOTTOM + 4, AXIS);
        svg.text(
            x,
            BOTTOM + 19,
            12,
            Anchor::Middle,
            DARK,
            &workers.to_string(),
        );
        let used = format!("{}%", report.used(workers));
        svg.text(x, BOTTOM + 38, 11, Anchor::Middle, GREY, &used);
    }
}

/// The span, and the calls shared out among the workers; each named at its right end.
fn draw_bounds(svg: &mut Svg, axis: Axis, report: &Report) {
    let y = axis.y(report.span);
    svg.line(LEFT, y, RIGHT, y, SPAN);
    let share: Vec<(i64, i64)> = (PIECES..=MOST_WORKERS as i64 * PIECES)
        .map(|pieces| {
            let x = 10 * x_of(1) + 10 * PITCH * (pieces - PIECES) / PIECES;
            let calls = report.calls * PIECES as u64;
            (x, axis.place(calls, pieces as u64, 10))
        })
        .collect();
    svg.curve(&share, SHARE);
    let end = axis.place(report.calls, MOST_WORKERS as u64, 1);
    let (span_y, share_y) = apart(y, end, 15);
    let span = format!("span {}", grouped(report.span));
    svg.text(RIGHT + 14, span_y + 4, 11, Anchor::Start, DARK, &span);
    svg.text(
        RIGHT + 14,
        share_y + 4,
        11,
        Anchor::Start,
        DARK,
        "calls / workers",
    );
}

/// Two heights, moved from each other as far as they must be.
fn apart(one: i64, other: i64, least: i64) -> (i64, i64) {
    let missing = (least - (one - other).abs()).max(0);
    let (up, down) = (missing / 2, missing - missing / 2);
    if one <= other {
        (one - up, other + down)
    } else {
        (one + down, other - up)
    }
}

/// The fewest workers whose rounds are the span.
fn draw_enough(svg: &mut Svg, report: &Report) {
    let Some(workers) = report.enough else { return };
    let x = x_of(workers);
    svg.line(x, TOP - 36, x, BOTTOM, ENOUGH);
    let words = match workers {
        1 => "enough: 1 worker".to_string(),
        _ => format!("enough: {workers} workers"),
    };
    if workers <= 12 {
        svg.text(x + 6, TOP - 27, 12, Anchor::Start, DARK, &words);
    } else {
        svg.text(x - 6, TOP - 27, 12, Anchor::End, DARK, &words);
    }
}

/// A point for each number of workers. Its number stands to the right above it, where no bound passes.
fn draw_points(svg: &mut Svg, axis: Axis, report: &Report) {
    for workers in 1..=MOST_WORKERS {
        let rounds = report.rounds[workers - 1];
        let (x, y) = (x_of(workers), axis.y(rounds));
        let noun = if workers == 1 { "worker" } else { "workers" };
        svg.open(&format!(
            "{workers} {noun}: {} rounds, {}% used",
            grouped(rounds),
            report.used(workers)
        ));
        svg.dot(x, y, 5, ROUNDS);
        let number = grouped(rounds);
        // A digit is 7 wide; the next point begins 5 ahead of its place.
        if number.len() as i64 * 7 <= PITCH - 9 {
            svg.text(x + 4, y - 8, 11, Anchor::Start, NUMBER, &number);
        }
        svg.close();
    }
}

fn draw_legend(svg: &mut Svg, report: &Report, y: i64) -> i64 {
    let (left, right) = (16, WIDTH / 2);
    let mut say =
        |x: i64, y: i64, words: &str| svg.text(x + 32, y + 4, 11, Anchor::Start, DARK, words);
    say(left, y, "rounds: in each, a worker makes at most one call");
    say(right, y, "calls / (workers \u{d7} rounds), rounded down");
    say(
        left,
        y + 20,
        "span: the rounds with 128 workers; no choice of calls takes fewer",
    );
    say(
        right,
        y + 20,
        "calls / workers: no choice of calls takes fewer rounds",
    );
    svg.dot(left + 11, y, 5, ROUNDS);
    svg.text(right - 4, y + 4, 11, Anchor::Start, GREY, "used");
    svg.line(left, y + 20, left + 22, y + 20, SPAN);
    svg.line(right, y + 20, right + 22, y + 20, SHARE);
    if report.enough.is_none() {
        return y + 42;
    }
    svg.text(
        left + 32,
        y + 44,
        11,
        Anchor::Start,
        DARK,
        "enough: the fewest workers whose rounds are the span",
    );
    svg.line(left + 11, y + 32, left + 11, y + 48, ENOUGH);
    y + 62
}

#[cfg(test)]
mod tests {
    use super::*;

    fn report(calls: u64, span: u64, rounds: Vec<u64>) -> Report {
        let enough = rounds.iter().position(|rounds| *rounds == span);
        Report {
            calls,
            span,
            rounds,
            enough: enough.map(|place| place + 1),
        }
    }

    /// P of document 01: 13 rounds with one worker, 11 with more.
    fn p() -> Report {
        report(13, 11, [vec![13], vec![11; 15]].concat())
    }

    /// 128 jobs of 34 calls, side by side.
    fn largest() -> Report {
        report(4352, 34, (1..=16).map(|p| 4352u64.div_ceil(p)).collect())
    }

    /// The numbers of an attribute, as many times as it is there.
    fn numbers(svg: &str, element: &str, attribute: &str) -> Vec<i64> {
        svg.lines()
            .filter(|line| line.starts_with(&format!("<{element} ")))
            .map(|line| {
                let behind = line.split(&format!("{attribute}=\"")).nth(1).unwrap();
                behind.split('"').next().unwrap().parse().unwrap()
            })
            .collect()
    }

    #[test]
    fn ticks_of_small_and_large_values() {
        for (most, step, last) in [
            (1, 1, 1),
            (2, 1, 2),
            (7, 1, 7),
            (8, 2, 8),
            (13, 2, 14),
            (15, 5, 15),
            (35, 5, 35),
            (36, 10, 40),
            (61, 10, 70),
            (71, 20, 80),
            (324, 50, 350),
            (701, 200, 800),
            (4352, 1000, 5000),
            (u32::MAX as u64, 1_000_000_000, 5_000_000_000),
        ] {
            assert_eq!(Axis::up_to(most), Axis { step, last }, "{most}");
        }
        assert_eq!(Axis::up_to(13).ticks(), [0, 2, 4, 6, 8, 10, 12, 14]);
        assert_eq!(Axis::up_to(4352).ticks(), [0, 1000, 2000, 3000, 4000, 5000]);
    }

    /// For every value the last tick is at or above it, less than a step above, and there are few ticks, but not too few.
    #[test]
    fn ticks_of_every_value() {
        for most in 1..=5000 {
            let axis = Axis::up_to(most);
            assert!(axis.last >= most && axis.last < most + axis.step, "{most}");
            let ticks = axis.ticks();
            assert_eq!((ticks[0], ticks.last()), (0, Some(&axis.last)));
            let enough = (most as usize + 1).min(4);
            assert!((enough..=8).contains(&ticks.len()), "{most}: {ticks:?}");
        }
    }

    #[test]
    fn places_on_the_axis() {
        let axis = Axis { step: 2, last: 14 };
        assert_eq!((axis.y(0), axis.y(14)), (BOTTOM, TOP));
        assert_eq!(axis.y(7), (BOTTOM + TOP) / 2);
        // 300 * 11 / 14 is 235.7
        assert_eq!(axis.y(11), BOTTOM - 236);
        assert_eq!(axis.place(11, 1, 10), 10 * BOTTOM - 2357);
        // 13 / 2 is 6.5, and 300 * 6.5 / 14 is 139.3
        assert_eq!(axis.place(13, 2, 1), BOTTOM - 139);
        assert_eq!((x_of(1), x_of(2)), (LEFT + 22, LEFT + 66));
        assert_eq!(x_of(16), RIGHT - 22);
    }

    /// The points stand at their workers and rounds; the last dot is the legend's.
    #[test]
    fn points_stand_where_they_must() {
        for report in [p(), largest()] {
            let axis = Axis::up_to(report.calls);
            let svg = draw("x", &report);
            let (x, y) = (numbers(&svg, "circle", "cx"), numbers(&svg, "circle", "cy"));
            assert_eq!(x.len(), 17);
            for workers in 1..=16 {
                assert_eq!(x[workers - 1], LEFT + 22 + 44 * (workers as i64 - 1));
                assert_eq!(y[workers - 1], axis.y(report.rounds[workers - 1]));
            }
        }
        let y = numbers(&draw("x", &p()), "circle", "cy");
        assert_eq!(
            (y[0], y[1], y[15]),
            (BOTTOM - 279, BOTTOM - 236, BOTTOM - 236)
        );
        let y = numbers(&draw("x", &largest()), "circle", "cy");
        assert_eq!(
            (y[0], y[1], y[15]),
            (BOTTOM - 261, BOTTOM - 131, BOTTOM - 16)
        );
    }

    /// Each point's number, in whole.
    #[test]
    fn points_have_their_numbers() {
        let svg = draw("x", &largest());
        for number in [">4,352<", ">2,176<", ">1,451<", ">1,088<", ">871<", ">272<"] {
            assert_eq!(svg.matches(number).count(), 1, "{number}");
        }
        assert_eq!(draw("x", &p()).matches(">11</text>").count(), 16);
        assert!(svg.contains("<title>3 workers: 1,451 rounds, 99% used</title>"));
        assert!(svg.contains("<title>1 worker: 4,352 rounds, 100% used</title>"));
    }

    /// The span's line is at the height of the points that reach it; the curve begins at the first point.
    #[test]
    fn bounds_stand_where_they_must() {
        let svg = draw("x", &p());
        let y = BOTTOM - 236;
        assert!(svg.contains(&format!(
            "<line x1=\"{LEFT}\" y1=\"{y}\" x2=\"{RIGHT}\" y2=\"{y}\" {SPAN}/>"
        )));
        let curve = svg
            .lines()
            .find(|line| line.starts_with("<polyline"))
            .unwrap();
        let points: Vec<&str> = curve.split('"').nth(1).unwrap().split(' ').collect();
        assert_eq!(points.len(), 15 * PIECES as usize + 1);
        // 300 * 13 / 14 is 278.57; half of it, 139.29, at two workers; a sixteenth, 17.41, at 16
        assert_eq!(points[0], "98.0,133.4");
        assert_eq!(points[8], "142.0,272.7");
        assert_eq!(points[120], "758.0,394.6");
    }

    #[test]
    fn what_is_enough_is_marked() {
        let mark = |workers| {
            format!(
                "<line x1=\"{0}\" y1=\"{1}\" x2=\"{0}\"",
                x_of(workers),
                TOP - 36
            )
        };
        let svg = draw("x", &p());
        assert!(svg.contains(&mark(2)));
        assert!(svg.contains(">enough: 2 workers</text>"));
        let svg = draw("x", &report(2, 2, vec![2; 16]));
        assert!(svg.contains(&mark(1)));
        assert!(svg.contains(">enough: 1 worker</text>"));
        let svg = draw("x", &largest());
        assert!(!svg.contains("enough"));
        assert!(!svg.contains(ENOUGH));
    }

    #[test]
    fn the_title() {
        let svg = draw("a<b>&\"c\u{1}", &largest());
        let title = "Publication a&lt;b&gt;&amp;&quot;c?: 4,352 calls, span 34</text>";
        assert!(svg.contains(title));
        let long = "n".repeat(41);
        assert!(
            draw(&long, &p()).contains(&format!("Publication {}\u{2026}: 13 calls", &long[..39]))
        );
        assert!(draw(&long[..40], &p()).contains(&format!("Publication {}: 13 calls", &long[..40])));
    }

    #[test]
    fn labels_come_apart() {
        assert_eq!(apart(100, 130, 15), (100, 130));
        assert_eq!(apart(100, 100, 15), (93, 108));
        assert_eq!(apart(104, 100, 15), (110, 95));
        assert_eq!(apart(115, 100, 15), (115, 100));
    }
}
