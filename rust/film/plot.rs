//! The scores of a film over time, with the threshold and the cuts, as one SVG file that needs no other file. A film of
//! any length gives a file of at most some hundred kilobytes: each column of the sheet has the least and the greatest
//! score of its frames, so that no peak is lost.
use crate::axis::{Axis, Time, COLUMNS, LEFT, RIGHT, WIDTH};
use crate::number::{brief, grouped, short};
use crate::record::{Clip, Film, Frame, Settings};
use crate::report::summary;
use crate::svg::{escaped, half_width, label, shortened};
use crate::timecode::timecode;
use std::fmt::Write as _;
use std::io::{self, Write};

const INK: &str = "#1f2933";
const GREY: &str = "#52606d";
const GRID: &str = "#e1e6eb";
const LIMIT: &str = "#c2410c";
const CUT: &str = "#0a8f6c";

/// The most letters of the title, and of a line below it.
const TITLE: usize = 90;
const LINE: usize = 170;

/// Above this number of cuts their marks are small.
const MANY_CUTS: usize = 200;

/// What is drawn over time: a number of each frame that has it.
struct Curve {
    name: &'static str,
    colour: &'static str,
    value: fn(&Frame) -> Option<f64>,
    /// Whether its axis is logarithmic.
    logarithmic: bool,
    limit: Limit,
}

/// What a curve is compared with.
enum Limit {
    /// A setting: its name and its value.
    Set(&'static str, f64),
    /// The threshold that a light plan has for each frame.
    ByPlan,
}

impl Limit {
    /// Its values, in any order.
    fn values(&self, film: &Film) -> Vec<f64> {
        match self {
            Limit::Set(_, value) => vec![*value],
            Limit::ByPlan => film.frames.iter().filter_map(|frame| frame.threshold).collect(),
        }
    }
}

/// A curve with its place on the sheet.
struct Panel {
    curve: Curve,
    axis: Axis,
    /// The places of each column's least and greatest value, as the coordinates of a path.
    path: String,
    /// The thresholds by a light plan, as a path of steps, and the least and the greatest of them.
    steps: Option<(String, [f64; 2])>,
    /// Whether there are more places than columns.
    is_dense: bool,
}

/// A film on its sheet.
struct Sheet<'a> {
    film: &'a Film,
    clips: Vec<Clip>,
    /// The clips whose starts are shown as cuts: at most one a column, from left to right.
    cuts: Vec<Clip>,
    /// Whether there is room for the timecodes of all cuts.
    with_timecodes: bool,
    time: Time,
    panels: Vec<Panel>,
    /// The bottom of the lowest panel.
    bottom: f64,
}

/// Writes the plot of a film.
pub fn write(film: &Film, out: &mut dyn Write) -> io::Result<()> {
    let sheet = Sheet::new(film);
    out.write_all(sheet.head().as_bytes())?;
    out.write_all(sheet.legend().as_bytes())?;
    out.write_all(sheet.times().as_bytes())?;
    for panel in &sheet.panels {
        out.write_all(panel.frame().as_bytes())?;
    }
    out.write_all(sheet.cuts().as_bytes())?;
    for panel in &sheet.panels {
        out.write_all(panel.drawn().as_bytes())?;
        out.write_all(panel.limit().as_bytes())?;
        out.write_all(sheet.dots(panel).as_bytes())?;
    }
    out.write_all(b"</svg>\n")
}

/// The curves of a film's detector, from the top.
fn curves(film: &Film) -> Vec<Curve> {
    let score = |limit| Curve {
        name: "score",
        colour: "#1d5fa6",
        value: |frame: &Frame| frame.score,
        logarithmic: false,
        limit,
    };
    match &film.settings {
        Settings::Content(_) if film.plan.is_some() => vec![score(Limit::ByPlan)],
        Settings::Content(options) => vec![score(Limit::Set("threshold", options.threshold))],
        Settings::Adaptive(options) => {
            let ratio = Curve {
                name: "ratio",
                colour: "#7b3f9e",
                value: |frame: &Frame| frame.ratio,
                logarithmic: true,
                limit: Limit::Set("threshold", options.threshold),
            };
            vec![ratio, score(Limit::Set("min_content_val", options.min_content_val))]
        }
    }
}

/// The least and the greatest value in a column of the sheet, each with its stamp.
#[derive(Clone, Copy)]
struct Column {
    low: (i64, f64),
    high: (i64, f64),
}

impl Column {
    fn with(column: Option<Column>, point: (i64, f64)) -> Column {
        let Some(mut column) = column else {
            return Column { low: point, high: point };
        };
        if point.1 < column.low.1 {
            column.low = point;
        }
        if point.1 > column.high.1 {
            column.high = point;
        }
        column
    }

    /// Its two values by their stamps, or the one that it has.
    fn points(self) -> Vec<(i64, f64)> {
        if self.low == self.high {
            return vec![self.low];
        }
        let (first, second) = if self.low.0 <= self.high.0 { (self.low, self.high) } else { (self.high, self.low) };
        vec![first, second]
    }
}

/// The points of a curve with this value, from left to right: at most two a column.
fn points(film: &Film, value: impl Fn(&Frame) -> Option<f64>, time: &Time) -> Vec<(i64, f64)> {
    let mut columns = vec![None; COLUMNS];
    for frame in &film.frames {
        let value = value(frame).filter(|value| !value.is_nan());
        if let (Some(value), Some(column)) = (value, columns.get_mut(time.column(frame.at))) {
            *column = Some(Column::with(*column, (frame.at, value)));
        }
    }
    columns.into_iter().flatten().flat_map(Column::points).collect()
}

impl Panel {
    fn new(film: &Film, curve: Curve, time: &Time, top: f64, bottom: f64) -> Panel {
        let points = points(film, curve.value, time);
        let values = points.iter().map(|&(_, value)| value);
        let limits = curve.limit.values(film);
        let axis = Axis::new(values, limits.iter().copied(), curve.logarithmic, top, bottom);
        let place = |&(at, value): &(i64, f64)| format!("{:.1},{:.1}", time.x(at), axis.y(value));
        let path = points.iter().map(place).collect::<Vec<_>>().join(" ");
        let steps = match curve.limit {
            Limit::Set(..) => None,
            Limit::ByPlan => steps(film, &axis, time).zip(ends(&limits)),
        };
        Panel { curve, axis, path, steps, is_dense: points.len() > COLUMNS }
    }

    /// The background of a panel, its lines across and their values.
    fn frame(&self) -> String {
        let Axis { top, bottom, .. } = self.axis;
        let mut text = String::new();
        for tick in self.axis.ticks() {
            let y = self.axis.y(tick.value);
            let _ = writeln!(text, "<path d=\"M{LEFT} {y:.1}H{RIGHT}\" stroke=\"{GRID}\"/>");
            text += &label(LEFT - 8.0, y + 4.0, "end", GREY, &tick.text);
        }
        let _ = writeln!(
            text,
            "<path d=\"M{LEFT} {top}V{bottom}H{RIGHT}\" fill=\"none\" stroke=\"{GREY}\"/>\n\
             <text transform=\"translate(20 {:.1}) rotate(-90)\" text-anchor=\"middle\" fill=\"{}\">{}</text>",
            (top + bottom) / 2.0,
            self.curve.colour,
            self.curve.name
        );
        text
    }

    /// The curve, or words where there is none.
    fn drawn(&self) -> String {
        if self.path.is_empty() {
            let text = format!("no frame has a {}", self.curve.name);
            return label((LEFT + RIGHT) / 2.0, (self.axis.top + self.axis.bottom) / 2.0, "middle", GREY, &text);
        }
        format!(
            "<path d=\"M{}h0\" fill=\"none\" stroke=\"{}\" stroke-width=\"{}\" stroke-linejoin=\"round\" \
             stroke-linecap=\"round\"/>\n",
            self.path,
            self.curve.colour,
            if self.is_dense { 0.7 } else { 1.3 }
        )
    }

    /// The line of what the curve is compared with; where the curve is dense, on a light ground so that it is seen.
    fn limit(&self) -> String {
        match (&self.curve.limit, &self.steps) {
            (Limit::Set(_, limit), _) if self.axis.shows(*limit) => {
                let y = self.axis.y(*limit);
                let line = self.limit_line(&format!("M{LEFT} {y:.1}H{RIGHT}"), "");
                line + &label(RIGHT + 6.0, y + 4.0, "start", LIMIT, &brief(*limit))
            }
            (Limit::ByPlan, Some((steps, _))) => self.limit_line(steps, "fill=\"none\" "),
            _ => String::new(),
        }
    }

    fn limit_line(&self, path: &str, fill: &str) -> String {
        let line = format!("<path d=\"{path}\" {fill}");
        let ground = format!("{line}stroke=\"#ffffff\" stroke-width=\"3.4\" stroke-opacity=\"0.7\"/>\n");
        format!(
            "{}{line}stroke=\"{LIMIT}\" stroke-width=\"1.4\" stroke-dasharray=\"7 4\"/>\n",
            if self.is_dense { &ground } else { "" }
        )
    }

    /// Words for what the curve is compared with.
    fn limit_name(&self) -> String {
        match (&self.curve.limit, self.steps.as_ref().map(|(_, ends)| ends)) {
            (Limit::Set(name, limit), _) => format!("{name} {}{}", brief(*limit), self.axis.beyond(*limit)),
            (Limit::ByPlan, Some([least, most])) if least < most => {
                format!("threshold by the light plan, {} to {}{}", brief(*least), brief(*most), self.axis.beyond(*most))
            }
            (Limit::ByPlan, Some([_, most])) => {
                format!("threshold by the light plan, {}{}", brief(*most), self.axis.beyond(*most))
            }
            (Limit::ByPlan, None) => "threshold by the light plan".into(),
        }
    }
}

/// The thresholds of a film's frames as a path of steps: each holds until the next one.
fn steps(film: &Film, axis: &Axis, time: &Time) -> Option<String> {
    let points = points(film, |frame| frame.threshold, time);
    let (&(at, first), rest) = points.split_first()?;
    let mut path = format!("M{:.1} {:.1}", time.x(at), axis.y(first));
    let mut last = first;
    for &(at, threshold) in rest {
        if threshold != last {
            // a String takes all that is written
            let _ = write!(path, "H{:.1}V{:.1}", time.x(at), axis.y(threshold));
            last = threshold;
        }
    }
    Some(format!("{path}H{:.1}", time.x(film.end)))
}

/// The least and the greatest of some numbers.
fn ends(values: &[f64]) -> Option<[f64; 2]> {
    let (first, rest) = values.split_first()?;
    Some(rest.iter().fold([*first; 2], |[least, most], &value| [least.min(value), most.max(value)]))
}

impl Sheet<'_> {
    fn new(film: &Film) -> Sheet<'_> {
        let time = Time::of(film);
        let curves = curves(film);
        let (top, gap) = (if film.fault.is_some() { 134.0 } else { 116.0 }, 26.0);
        let height = if curves.len() == 1 { 300.0 } else { 200.0 };
        let place = |number: usize| top + number as f64 * (height + gap);
        let panel = |(number, curve)| Panel::new(film, curve, &time, place(number), place(number) + height);
        let bottom = place(curves.len()) - gap;
        let panels = curves.into_iter().enumerate().map(panel).collect();
        let clips = film.clips();
        let cuts = shown(&clips, &time);
        Sheet { film, with_timecodes: timecodes_fit(&cuts, &time), cuts, clips, time, panels, bottom }
    }

    fn top(&self) -> f64 {
        self.panels.first().map_or(self.bottom, |panel| panel.axis.top)
    }

    /// The beginning of the file: what it shows, in words too, its background and its title.
    fn head(&self) -> String {
        let height = self.bottom + 52.0;
        let title = escaped(&shortened(&format!("Cuts of {}", self.film.name), TITLE));
        let summary = summary(self.film, self.clips.len());
        let mut text = format!(
            "<svg xmlns=\"http://www.w3.org/2000/svg\" width=\"{WIDTH}\" height=\"{height}\" \
             viewBox=\"0 0 {WIDTH} {height}\" font-family=\"sans-serif\" font-size=\"12\" role=\"img\" \
             aria-labelledby=\"title desc\">\n\
             <title id=\"title\">{title}</title>\n<desc id=\"desc\">{}</desc>\n\
             <rect width=\"{WIDTH}\" height=\"{height}\" rx=\"6\" fill=\"#ffffff\"/>\n\
             <text x=\"{LEFT}\" y=\"32\" font-size=\"18\" font-weight=\"bold\" fill=\"{INK}\">{title}</text>\n",
            escaped(&self.description(&summary))
        );
        text += &label(LEFT, 53.0, "start", GREY, &shortened(&summary, LINE));
        if let Some(lacks) = self.film.lacks() {
            text += &label(LEFT, 71.0, "start", LIMIT, &shortened(&lacks, LINE));
        }
        text
    }

    /// What the plot shows, for those who can't see it.
    fn description(&self, summary: &str) -> String {
        let names = self.panels.iter().map(|panel| match panel.curve.limit {
            Limit::Set(name, limit) => format!("the {} of each frame with {name} {}", panel.curve.name, short(limit)),
            Limit::ByPlan => format!("the {} of each frame with {}", panel.curve.name, panel.limit_name()),
        });
        let names = names.collect::<Vec<_>>().join(", ");
        let cuts: Vec<String> = self.clips.iter().skip(1).take(50).map(|clip| timecode(clip.start)).collect();
        let more = self.clips.len().saturating_sub(1 + cuts.len());
        let cuts = match (cuts.len(), more) {
            (0, _) => "No cuts".to_string(),
            (_, 0) => format!("Cuts at {}", cuts.join(", ")),
            (_, more) => format!("Cuts at {} and {} more", cuts.join(", "), grouped(more)),
        };
        format!("{summary}. Over time: {names}. {cuts}.")
    }

    /// The samples of the lines, and what they stand for.
    fn legend(&self) -> String {
        let (mut x, y) = (LEFT, self.top() - 36.0);
        let mut text = String::new();
        for (colour, style, name) in self.entries() {
            let _ = writeln!(
                text,
                "<path d=\"M{x:.1} {:.1}h22\" stroke=\"{colour}\" stroke-width=\"2\" {style}/>",
                y - 4.0
            );
            text += &label(x + 28.0, y, "start", INK, &name);
            x += 54.0 + 6.6 * name.chars().count() as f64;
        }
        text
    }

    fn entries(&self) -> Vec<(&'static str, &'static str, String)> {
        let of_panel = |panel: &Panel| {
            let curve = &panel.curve;
            let scale = if curve.logarithmic { " (logarithmic)" } else { "" };
            let dashes = "stroke-dasharray=\"7 4\"";
            [(curve.colour, "", format!("{}{scale}", curve.name)), (LIMIT, dashes, panel.limit_name())]
        };
        let mut entries: Vec<_> = self.panels.iter().flat_map(of_panel).collect();
        let name = if self.with_timecodes { "cut" } else { "cut, with the number of the clip that it starts" };
        if !self.cuts.is_empty() {
            entries.push((CUT, "", name.to_string()));
        }
        entries
    }

    /// The ticks of the time, below the lowest panel.
    fn times(&self) -> String {
        let mut text = String::new();
        for tick in self.time.ticks() {
            let _ = write!(text, "<path d=\"M{:.1} {:.1}", tick.x, self.bottom + 5.0);
            let _ = writeln!(text, "V{:.1}\" stroke=\"{GRID}\"/>", self.top());
            text += &label(tick.x, self.bottom + 20.0, "middle", GREY, &tick.text);
        }
        text + &label((LEFT + RIGHT) / 2.0, self.bottom + 40.0, "middle", GREY, "time")
    }

    /// The cuts as lines through all panels, or where there are many as marks above them; with labels as far as there
    /// is room.
    fn cuts(&self) -> String {
        if self.cuts.is_empty() {
            return String::new();
        }
        let top = self.top() - 6.0;
        let bottom = if self.cuts.len() > MANY_CUTS { top + 6.0 } else { self.bottom };
        let line = |clip: &Clip| format!("M{:.1} {top}V{bottom}", self.time.x(clip.start));
        let lines: String = self.cuts.iter().map(line).collect();
        let mut text = format!("<path d=\"{lines}\" stroke=\"{CUT}\" stroke-opacity=\"0.6\"/>\n");
        let mut free = 0.0;
        for clip in &self.cuts {
            let name = if self.with_timecodes { timecode(clip.start) } else { clip.number.to_string() };
            let (x, half) = (self.time.x(clip.start), half_width(&name));
            if x - half >= free {
                text += &label(x, top - 4.0, "middle", CUT, &name);
                free = x + half;
            }
        }
        text
    }

    /// A dot at the value of each frame that is a cut.
    fn dots(&self, panel: &Panel) -> String {
        let dot = |clip: &Clip| {
            let value = self.film.frames.get(clip.first).and_then(panel.curve.value)?;
            Some(format!("M{:.1} {:.1}h0", self.time.x(clip.start), panel.axis.y(value)))
        };
        let dots: String = self.cuts.iter().filter_map(dot).collect();
        if dots.is_empty() {
            return dots;
        }
        let width = if self.cuts.len() > MANY_CUTS { 3 } else { 6 };
        format!("<path d=\"{dots}\" stroke=\"{CUT}\" stroke-width=\"{width}\" stroke-linecap=\"round\"/>\n")
    }
}

/// The clips but the first, without those whose start is in the column of an earlier one.
fn shown(clips: &[Clip], time: &Time) -> Vec<Clip> {
    let mut taken = vec![false; COLUMNS];
    let mut is_new = |clip: &&Clip| {
        let column = taken.get_mut(time.column(clip.start));
        column.is_some_and(|taken| !std::mem::replace(taken, true))
    };
    let mut cuts: Vec<Clip> = clips.iter().skip(1).filter(&mut is_new).copied().collect();
    cuts.sort_by_key(|clip| clip.start);
    cuts
}

/// Whether there is room for the timecodes of all these.
fn timecodes_fit(cuts: &[Clip], time: &Time) -> bool {
    let half = |clip: &Clip| half_width(&timecode(clip.start));
    let gaps = cuts.iter().zip(cuts.iter().skip(1));
    gaps.into_iter().all(|(a, b)| time.x(b.start) - half(b) >= time.x(a.start) + half(a))
}

#[cfg(test)]
mod tests {
    use super::*;
    use crate::frame::Fault;
    use crate::report::sample;
    use mawerodu::{AdaptiveOptions, ContentOptions};

    const CURVE: &str = "fill=\"none\" stroke=\"#1d5fa6\"";

    /// The plot of a film, once it is known to be well-formed and to have no number that is none.
    fn plot(film: &Film) -> String {
        let mut out = Vec::new();
        write(film, &mut out).unwrap();
        let text = String::from_utf8(out).unwrap();
        well_formed(&text);
        assert!(!text.contains("NaN") && !text.contains("inf,") && !text.contains(",inf"), "{text}");
        let numbers = text.split(" d=\"").skip(1).flat_map(|rest| rest.split('"').next());
        for number in numbers.flat_map(|path| path.split(|c: char| c.is_ascii_alphabetic() || c == ' ' || c == ',')) {
            let inside = |number: f64| (0.0..=WIDTH).contains(&number);
            assert!(number.is_empty() || number.parse().is_ok_and(inside), "{number}");
        }
        text
    }

    /// Elements within each other, and nothing in texts and attributes that XML does not take there.
    fn well_formed(text: &str) {
        let mut open = Vec::new();
        for part in text.split('<').skip(1) {
            let (tag, content) = part.split_once('>').unwrap();
            assert!(!content.contains(['>', '"']) && tag.matches('"').count() % 2 == 0, "{part}");
            assert_eq!(
                part.matches('&').count(),
                part.matches("&amp;").count()
                    + part.matches("&lt;").count()
                    + part.matches("&gt;").count()
                    + part.matches("&quot;").count()
            );
            let name = tag.split([' ', '\n']).next().unwrap();
            match name.strip_prefix('/') {
                Some(name) => assert_eq!(open.pop(), Some(name)),
                None if tag.ends_with('/') => {}
                None => open.push(name),
            }
        }
        assert!(open.is_empty() && text.starts_with("<svg xmlns=") && text.ends_with("</svg>\n"));
    }

    /// The path of the first line that draws one and has these attributes.
    fn path<'a>(text: &'a str, attributes: &str) -> &'a str {
        let line = text.lines().find(|line| line.starts_with("<path") && line.contains(attributes)).unwrap();
        line.split('"').nth(1).unwrap()
    }

    fn coordinates(path: &str) -> Vec<(f64, f64)> {
        let points = path.trim_start_matches('M').trim_end_matches("h0").split(' ');
        points
            .map(|point| point.split_once(',').unwrap())
            .map(|(x, y)| (x.parse().unwrap(), y.parse().unwrap()))
            .collect()
    }

    fn with_threshold(threshold: f64, film: Film) -> Film {
        Film { settings: Settings::Content(ContentOptions { threshold, ..ContentOptions::default() }), ..film }
    }

    #[test]
    fn a_small_film() {
        let text = plot(&sample::scored(&[1.0, 2.0, 100.0, 4.0], &[3]));
        let points = coordinates(path(&text, CURVE));
        assert_eq!(points.iter().map(|point| point.0).collect::<Vec<_>>(), [284.0, 498.0, 712.0, 926.0]);
        assert!(points[2].1 < points[3].1 && points[3].1 < points[1].1 && points[1].1 < points[0].1);
        assert!(text.contains("<title id=\"title\">Cuts of demo</title>"));
        assert!(text.contains(">2 clips, 1 cut, 5 frames of 640x480, content detector, threshold 27</text>"));
        assert!(text.contains("Cuts at 00:00:00.120.</desc>") && text.contains(">00:00:00.120</text>"));
        assert!(text.contains(">threshold 27</text>") && text.contains(">cut</text>"));
        // the line of the cut goes through the peak, and the dot is on it
        assert!(text.contains("<path d=\"M712.0 110V416\""));
        assert!(text.contains(&format!("<path d=\"M712.0 {:.1}h0\"", points[2].1)));
    }

    #[test]
    fn the_threshold_is_between_the_scores() {
        let text = plot(&sample::scored(&[26.0, 28.0], &[]));
        let points = coordinates(path(&text, CURVE));
        // the legend has the same dashes, in a line of its own
        let dashed = text.lines().filter(|line| line.contains("stroke-dasharray")).nth(1).unwrap();
        let y: f64 = dashed.split(['M', ' ', 'H']).nth(3).unwrap().parse().unwrap();
        assert!(points[0].1 > y && y > points[1].1, "{dashed}");
        assert!(!text.contains(">cut"));
    }

    #[test]
    fn no_peak_is_lost_and_the_file_is_small() {
        let mut scores: Vec<f64> = (0..100_000).map(|place| f64::from(place % 7)).collect();
        scores[65_432] = 200.0;
        scores[34_567] = -50.0;
        let text = plot(&sample::scored(&scores, &[65_433]));
        let points = coordinates(path(&text, CURVE));
        assert!(points.len() <= 2 * COLUMNS && text.len() < 60_000, "{} {}", points.len(), text.len());
        assert!(points.windows(2).all(|pair| pair[0].0 <= pair[1].0));
        let x = |place: usize| LEFT + place as f64 / 100_001.0 * (RIGHT - LEFT);
        let highest = points.iter().copied().min_by(|a, b| a.1.total_cmp(&b.1)).unwrap();
        let lowest = points.iter().copied().max_by(|a, b| a.1.total_cmp(&b.1)).unwrap();
        assert!((highest.0 - x(65_433)).abs() < 0.06 && (lowest.0 - x(34_568)).abs() < 0.06, "{highest:?} {lowest:?}");
    }

    #[test]
    fn many_cuts_are_thinned_out() {
        let places: Vec<usize> = (1..50_000).collect();
        let text = plot(&sample::scored(&vec![30.0; 50_000], &places));
        assert!(text.len() < 100_000, "{}", text.len());
        assert!(text.contains(">cut, with the number of the clip that it starts</text>"));
        assert!(text.contains(" and 49,949 more.</desc>"));
        let labels = text.lines().filter(|line| line.contains("y=\"106.0\"") && line.contains(CUT)).count();
        assert!((20..60).contains(&labels), "{labels}");
        assert!(path(&text, "stroke-opacity=\"0.6\"").matches('M').count() <= COLUMNS);
    }

    #[test]
    fn both_panels_of_the_adaptive_detector() {
        let text = plot(&sample::adaptive());
        for part in
            [">ratio (logarithmic)</text>", ">threshold 3</text>", ">score</text>", ">min_content_val 15</text>"]
        {
            assert!(text.contains(part), "{part}");
        }
        assert_eq!(text.matches("fill=\"none\" stroke=\"#7b3f9e\"").count(), 1);
        assert_eq!(text.matches(CURVE).count(), 1);
        let one = coordinates(path(&text, "fill=\"none\" stroke=\"#7b3f9e\""));
        assert_eq!(one.len(), 1);
    }

    #[test]
    fn a_light_plan_has_steps() {
        let text = plot(&sample::planned());
        for part in [
            ">threshold by the light plan, 8 to 27</text>",
            ", light plan of 2 rows. Over time: the score of each frame with threshold by the light plan, 8 to 27.",
        ] {
            assert!(text.contains(part), "{part}: {text}");
        }
        let steps = path(&text, "stroke=\"#c2410c\" stroke-width=\"1.4\"");
        let axis = &Sheet::new(&sample::planned()).panels[0].axis;
        let [low, high] = [axis.y(8.0), axis.y(27.0)];
        // the step is at the third frame, and the line ends with the film
        assert_eq!(steps, format!("M70.0 {low:.1}H1094.4V{high:.1}H1140.0"));
    }

    #[test]
    fn steps_of_a_long_film_are_few_and_far_ones_are_told() {
        let mut film = Film { plan: sample::planned().plan, ..sample::scored(&[1.0; 50_000], &[]) };
        for (place, frame) in film.frames.iter_mut().enumerate() {
            frame.threshold = Some(f64::from(place as u32 % 3 * 100));
        }
        let text = plot(&film);
        assert!(text.len() < 80_000, "{}", text.len());
        assert!(text.contains(">threshold by the light plan, 0 to 200 (above what is shown)</text>"));
        film.frames.iter_mut().for_each(|frame| frame.threshold = Some(5.0));
        assert!(plot(&film).contains(">threshold by the light plan, 5</text>"));
        film.frames.clear();
        assert!(plot(&film).contains(">threshold by the light plan</text>"));
    }

    #[test]
    fn films_of_few_frames() {
        for frames in 0..3 {
            for mut film in [sample::content(), sample::adaptive()] {
                film.frames.truncate(frames);
                film.end = 0;
                let text = plot(&film);
                assert_eq!(text.contains(">no frame has a score</text>"), frames < 2);
            }
        }
    }

    #[test]
    fn far_thresholds_are_told() {
        let film = |threshold| plot(&with_threshold(threshold, sample::scored(&[1.0, 2.0], &[])));
        for (threshold, words) in [
            (f64::INFINITY, ">threshold inf (above what is shown)<"),
            (1e300, ">threshold 1e300 (above what is shown)<"),
            (2500.0, ">threshold 2500 (above what is shown)<"),
            (f64::NEG_INFINITY, ">threshold -inf (below what is shown)<"),
            (f64::MAX, ">threshold 1.80e308 (above what is shown)<"),
            (12.3456789, ">threshold 12.35<"),
        ] {
            let text = film(threshold);
            assert!(text.contains(words), "{text}");
            let lines = text.lines().filter(|line| line.contains("stroke-dasharray")).count();
            assert_eq!(lines, if words.contains("shown") { 1 } else { 2 });
        }
    }

    #[test]
    fn odd_stamps_and_scores() {
        let scores = [1.0, -200.0, 255.0, f64::INFINITY, f64::NEG_INFINITY, f64::NAN, f64::MAX, 5e-324, -0.0];
        let stamps: [&[i64]; 6] = [
            &[0; 10],
            &[9, 8, 7, 6, 5, 4, 3, 2, 1, 0],
            &[i64::MIN, i64::MAX, 0, -1, 1, i64::MAX, i64::MIN, 5, 5, 5],
            &[i64::MAX; 10],
            &[i64::MIN; 10],
            &[0, 1, 2, 3, 4, 5, 6, 7, 8, i64::MAX],
        ];
        for (stamps, end) in stamps.iter().flat_map(|stamps| [i64::MIN, 0, i64::MAX].map(|end| (stamps, end))) {
            let mut film = Film { end, ..sample::scored(&scores, &[2, 3, 9]) };
            film.frames.iter_mut().zip(*stamps).for_each(|(frame, &at)| frame.at = at);
            plot(&film);
            film.settings = Settings::Adaptive(AdaptiveOptions { threshold: -1e300, ..AdaptiveOptions::default() });
            film.frames.iter_mut().for_each(|frame| frame.ratio = frame.score);
            plot(&film);
        }
    }

    #[test]
    fn falling_stamps_are_drawn_from_left_to_right() {
        let rising = sample::scored(&[1.0, 50.0, 2.0, 3.0, 60.0, 4.0], &[2, 5]);
        let mut falling = rising.clone();
        falling.frames.reverse();
        let labels = |film: &Film| {
            let text = plot(film);
            text.lines().filter(|line| line.contains("y=\"106.0\"")).map(str::to_string).collect::<Vec<_>>()
        };
        assert_eq!(labels(&rising).len(), 2);
        assert_eq!(labels(&rising), labels(&falling));
        assert_eq!(path(&plot(&rising), CURVE), path(&plot(&falling), CURVE));
    }

    #[test]
    fn names_and_faults_are_escaped_and_shortened() {
        let name = "<a & \"b\">\u{0}\u{ffff}".to_string();
        let fault = Some(Fault("no <more> frames".to_string()));
        let text = plot(&Film { name, ended: false, fault, ..sample::content() });
        assert!(text.contains(">Cuts of &lt;a &amp; &quot;b&quot;&gt;\u{fffd}\u{fffd}</text>"));
        assert!(text.contains(">incomplete: no &lt;more&gt; frames; these are the clips up to there</text>"));
        let text = plot(&Film { name: "漢".repeat(10_000), ..sample::content() });
        assert!(text.len() < 10_000);
    }

    #[test]
    fn a_full_disk_is_told() {
        assert!(write(&sample::content(), &mut [0u8; 3000].as_mut_slice()).is_err());
    }
}
