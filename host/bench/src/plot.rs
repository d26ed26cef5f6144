//! A plot of time against length, as an SVG picture.

use crate::messages::Figures;

const WIDTH: f64 = 760.0;
const HEIGHT: f64 = 480.0;
const LEFT: f64 = 70.0;
const RIGHT: f64 = 130.0;
const TOP: f64 = 30.0;
const BOTTOM: f64 = 50.0;
type Line = (&'static str, &'static str, fn(&Figures) -> Option<f64>);

const LINES: [Line; 6] = [
    ("the crate's decode", "#b3442c", |figures| Some(figures.decode)),
    ("the crate's encode", "#d98c2b", |figures| Some(figures.encode)),
    ("our unfold", "#7a4fa3", |figures| figures.unfold),
    ("our write", "#3f8f8f", |figures| figures.write),
    ("our listing", "#2f6f9f", |figures| Some(figures.listing)),
    ("our check", "#3b7d3b", |figures| Some(figures.check)),
];

/// The lowest place of each name beside its line's end, so that none lies on another.
fn apart(mut ends: Vec<f64>) -> Vec<f64> {
    let mut order: Vec<usize> = (0..ends.len()).collect();
    order.sort_by(|a, b| ends[*a].total_cmp(&ends[*b]));
    for pair in order.windows(2) {
        ends[pair[1]] = ends[pair[1]].max(ends[pair[0]] + 14.0);
    }
    ends
}

/// What each call took at each length of a message.
pub fn svg(figures: &[(usize, Figures)]) -> String {
    let longest = figures.iter().map(|(length, _)| *length).max().unwrap_or(1) as f64;
    let shortest = figures.iter().map(|(length, _)| *length).min().unwrap_or(1) as f64;
    let all =
        || figures.iter().flat_map(|(_, times)| LINES.iter().filter_map(|(_, _, of)| of(times)));
    // Whole powers of ten around what was measured.
    let low = all().fold(f64::MAX, f64::min).log10().floor();
    let high = all().fold(f64::MIN, f64::max).log10().ceil();
    let x = |length: f64| {
        LEFT + (WIDTH - LEFT - RIGHT) * (length / shortest).log2() / (longest / shortest).log2()
    };
    let y = |log: f64| HEIGHT - BOTTOM - (HEIGHT - TOP - BOTTOM) * (log - low) / (high - low);
    let mut text = format!(
        "<svg xmlns=\"http://www.w3.org/2000/svg\" viewBox=\"0 0 {WIDTH} {HEIGHT}\" \
         font-family=\"sans-serif\" font-size=\"12\">\n\
         <rect width=\"{WIDTH}\" height=\"{HEIGHT}\" fill=\"white\"/>\n\
         <text x=\"{LEFT}\" y=\"18\">Time of a call against the length of a bid's message</text>\n"
    );
    for power in low as i32..=high as i32 {
        let at = y(f64::from(power));
        text += &format!(
            "<path d=\"M{LEFT} {at:.1}H{:.1}\" stroke=\"#ddd\"/>\
             <text x=\"{:.1}\" y=\"{:.1}\" text-anchor=\"end\">{}</text>\n",
            WIDTH - RIGHT,
            LEFT - 6.0,
            at + 4.0,
            duration(power)
        );
    }
    let mut free = f64::MIN;
    for (length, _) in figures {
        let at = x(*length as f64);
        // The shortest messages lie close together.
        if at < free {
            continue;
        }
        free = at + 26.0;
        text += &format!(
            "<text x=\"{at:.1}\" y=\"{:.1}\" text-anchor=\"middle\" font-size=\"10\">{}</text>\n",
            HEIGHT - BOTTOM + 18.0,
            bytes(*length)
        );
    }
    text += &format!(
        "<text x=\"{:.1}\" y=\"{:.1}\" text-anchor=\"middle\">bytes of the message</text>\n",
        (LEFT + WIDTH - RIGHT) / 2.0,
        HEIGHT - 10.0
    );
    let lines: Vec<&Line> =
        LINES.iter().filter(|(_, _, of)| figures.iter().all(|(_, f)| of(f).is_some())).collect();
    let height = |of: fn(&Figures) -> Option<f64>, f: &Figures| y(of(f).unwrap_or(1.0).log10());
    let last = figures.last().map(|(_, figures)| figures);
    let ends = lines.iter().filter_map(|(_, _, of)| last.map(|f| height(*of, f) + 4.0)).collect();
    for ((name, colour, of), end) in lines.into_iter().zip(apart(ends)) {
        let points: Vec<String> = figures
            .iter()
            .map(|(length, f)| format!("{:.1},{:.1}", x(*length as f64), height(*of, f)))
            .collect();
        text += &format!(
            "<polyline points=\"{}\" fill=\"none\" stroke=\"{colour}\" stroke-width=\"2\"/>\n\
             <text x=\"{:.1}\" y=\"{end:.1}\" fill=\"{colour}\">{name}</text>\n",
            points.join(" "),
            x(longest) + 6.0
        );
    }
    text + "</svg>\n"
}

fn duration(power: i32) -> String {
    let unit = ["ns", "us", "ms", "s"][(power / 3).clamp(0, 3) as usize];
    format!("{} {unit}", 10_u32.pow((power - 3 * (power / 3).clamp(0, 3)).max(0) as u32))
}

fn bytes(length: usize) -> String {
    match length {
        0..=1_023 => length.to_string(),
        1_024..=1_048_575 => format!("{}K", length >> 10),
        _ => format!("{}M", length >> 20),
    }
}

#[cfg(test)]
mod tests {
    use super::*;

    fn figures(decode: f64, write: Option<f64>) -> Figures {
        Figures { decode, encode: 20.0, check: 10.0, listing: 20.0, unfold: Some(30.0), write }
    }

    #[test]
    fn a_line_for_each_side() {
        let text = svg(&[(18, figures(100.0, Some(50.0))), (1_000_000, figures(1e6, Some(60.0)))]);
        assert_eq!(text.matches("<polyline").count(), 6);
        assert!(text.starts_with("<svg") && text.ends_with("</svg>\n"));
        assert!(!text.contains("NaN") && !text.contains("inf"));
        assert!(text.contains(">10 ns<") && text.contains(">1 ms<"));
    }

    #[test]
    fn no_line_is_made_up() {
        let text = svg(&[(18, figures(100.0, None)), (1_000, figures(1e6, None))]);
        assert_eq!(text.matches("<polyline").count(), 5);
        assert!(!text.contains("our write"));
    }

    #[test]
    fn names_do_not_lie_on_one_another() {
        assert_eq!(apart(vec![50.0, 10.0, 12.0]), [50.0, 10.0, 24.0]);
    }
}
