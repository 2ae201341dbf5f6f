//! The plot: a line for each call, and on it a dot for each size at the ratio of our time to the original's.
use crate::Row;
use crate::files::compared;
use std::collections::BTreeSet;
use std::fmt::Write;

const LEFT: f64 = 210.0;
const WIDTH: f64 = 640.0;
const TOP: f64 = 96.0;
const LINE: f64 = 19.0;

/// The ratios that the axis marks.
const MARKS: &[f64] = &[0.01, 0.02, 0.05, 0.1, 0.2, 0.5, 1.0, 2.0, 5.0, 10.0];

/// The colours of the fewest, of some and of most units.
const COLOURS: [[f64; 3]; 3] = [
    [250.0, 205.0, 40.0],
    [30.0, 150.0, 140.0],
    [65.0, 5.0, 95.0],
];

struct Plot {
    svg: String,
    sizes: Vec<usize>,
}

impl Plot {
    fn colour(&self, size: usize) -> String {
        let place = self.sizes.partition_point(|&other| other < size);
        let part = 2.0 * place as f64 / (self.sizes.len().max(2) - 1) as f64;
        let [from, to] = if part < 1.0 {
            [COLOURS[0], COLOURS[1]]
        } else {
            [COLOURS[1], COLOURS[2]]
        };
        let mix = |k: usize| (from[k] + (to[k] - from[k]) * (part - part.floor().min(1.0))) as u8;
        format!("rgb({},{},{})", mix(0), mix(1), mix(2))
    }

    fn dot(&mut self, x: f64, y: f64, size: usize, says: &str) {
        let fill = self.colour(size);
        writeln!(
            self.svg,
            r##"<circle cx="{x:.1}" cy="{y:.1}" r="5" fill="{fill}" stroke="#fff"><title>{says}</title></circle>"##
        )
        .unwrap();
    }

    fn text(&mut self, x: f64, y: f64, anchor: &str, says: &str) {
        writeln!(
            self.svg,
            r#"<text x="{x:.1}" y="{y:.1}" text-anchor="{anchor}">{says}</text>"#
        )
        .unwrap();
    }

    fn line(&mut self, (x1, y1): (f64, f64), (x2, y2): (f64, f64), stroke: &str) {
        writeln!(
            self.svg,
            r#"<line x1="{x1:.1}" y1="{y1:.1}" x2="{x2:.1}" y2="{y2:.1}" stroke="{stroke}"/>"#
        )
        .unwrap();
    }

    /// The title, and a dot for each size.
    fn head(&mut self) {
        let title = "Time of our call as a part of the original's (left of 1: ours is faster)";
        self.text(10.0, 22.0, "start", title);
        self.text(10.0, 50.0, "start", "units:");
        let mut x = 60.0;
        for size in self.sizes.clone() {
            self.dot(x, 46.0, size, "");
            self.text(x + 10.0, 50.0, "start", &size.to_string());
            x += 34.0 + 7.5 * size.to_string().len() as f64;
        }
    }
}

pub fn svg(rows: &[Row]) -> String {
    let calls: Vec<&[Row]> = compared(rows).collect();
    let sizes: BTreeSet<usize> = calls
        .iter()
        .copied()
        .flatten()
        .map(|row| row.size)
        .collect();
    let ratios = || rows.iter().filter_map(Row::ratio);
    let least = ratios().fold(0.5, f64::min);
    let most = ratios().fold(2.0, f64::max);
    let x_of = |ratio: f64| LEFT + WIDTH * (ratio / least).ln() / (most / least).ln();
    let bottom = TOP + LINE * calls.len() as f64;
    let (wide, high) = (LEFT + WIDTH + 20.0, bottom + 44.0);

    let mut plot = Plot {
        svg: format!(
            r##"<svg xmlns="http://www.w3.org/2000/svg" viewBox="0 0 {wide} {high}" font-family="sans-serif" font-size="12">
<rect width="{wide}" height="{high}" fill="#fff"/>
"##
        ),
        sizes: sizes.into_iter().collect(),
    };
    plot.head();
    for &mark in MARKS.iter().filter(|mark| (least..=most).contains(*mark)) {
        let x = x_of(mark);
        let stroke = if mark == 1.0 { "#c00" } else { "#ddd" };
        plot.line((x, TOP - 14.0), (x, bottom), stroke);
        plot.text(x, TOP - 20.0, "middle", &mark.to_string());
        plot.text(x, bottom + 16.0, "middle", &mark.to_string());
    }
    let axis = "our time / the original's, on a scale of logarithms; at 1 both take as long";
    plot.text(LEFT + WIDTH / 2.0, bottom + 36.0, "middle", axis);
    for (k, call) in calls.iter().enumerate() {
        let y = TOP + LINE * k as f64;
        plot.text(LEFT - 14.0, y + 4.0, "end", call[0].name);
        plot.line((LEFT, y), (LEFT + WIDTH, y), "#eee");
        for row in *call {
            if let Some(ratio) = row.ratio() {
                let says = format!("{}, {} units: {ratio:.2}", row.name, row.size);
                plot.dot(x_of(ratio), y, row.size, &says);
            }
        }
    }
    plot.svg.push_str("</svg>\n");
    plot.svg
}
