//! The few elements that a picture is made of.

#[derive(Default)]
pub struct Svg {
    body: String,
}

/// Where a text stands against its point.
pub enum Anchor {
    Start,
    Middle,
    End,
}

impl Svg {
    pub fn new() -> Self {
        Svg::default()
    }

    pub fn rect(&mut self, x: i64, y: i64, width: i64, height: i64, style: &str) {
        self.body.push_str(&format!(
            "<rect x=\"{x}\" y=\"{y}\" width=\"{width}\" height=\"{height}\" {style}/>\n"
        ));
    }

    pub fn line(&mut self, x1: i64, y1: i64, x2: i64, y2: i64, style: &str) {
        self.body.push_str(&format!(
            "<line x1=\"{x1}\" y1=\"{y1}\" x2=\"{x2}\" y2=\"{y2}\" {style}/>\n"
        ));
    }

    /// A line through points that are named in tenths, for curves.
    pub fn curve(&mut self, tenths: &[(i64, i64)], style: &str) {
        let points: Vec<String> = tenths
            .iter()
            .map(|(x, y)| format!("{}.{},{}.{}", x / 10, x % 10, y / 10, y % 10))
            .collect();
        self.body.push_str(&format!(
            "<polyline points=\"{}\" fill=\"none\" {style}/>\n",
            points.join(" ")
        ));
    }

    pub fn dot(&mut self, x: i64, y: i64, radius: i64, style: &str) {
        self.body.push_str(&format!(
            "<circle cx=\"{x}\" cy=\"{y}\" r=\"{radius}\" {style}/>\n"
        ));
    }

    pub fn text(&mut self, x: i64, y: i64, size: i64, anchor: Anchor, style: &str, text: &str) {
        let anchor = match anchor {
            Anchor::Start => "start",
            Anchor::Middle => "middle",
            Anchor::End => "end",
        };
        let text = escaped(text);
        self.body.push_str(&format!("<text x=\"{x}\" y=\"{y}\" font-size=\"{size}\" text-anchor=\"{anchor}\" {style}>{text}</text>\n"));
    }

    /// What a pointer over the elements between `open` and `close` is told.
    pub fn open(&mut self, title: &str) {
        self.body
            .push_str(&format!("<g><title>{}</title>\n", escaped(title)));
    }

    pub fn close(&mut self) {
        self.body.push_str("</g>\n");
    }

    pub fn finish(self, width: i64, height: i64) -> String {
        let fonts = "font-family=\"DejaVu Sans, Verdana, Arial, sans-serif\"";
        format!(
            "<svg xmlns=\"http://www.w3.org/2000/svg\" width=\"{width}\" height=\"{height}\" viewBox=\"0 0 {width} {height}\" {fonts}>\n\
             <rect width=\"{width}\" height=\"{height}\" fill=\"#ffffff\"/>\n{}</svg>\n",
            self.body
        )
    }
}

fn escaped(text: &str) -> String {
    text.replace('&', "&amp;")
        .replace('<', "&lt;")
        .replace('>', "&gt;")
        .replace('"', "&quot;")
}
