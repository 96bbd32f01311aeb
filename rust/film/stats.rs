//! One line a frame, as comma-separated values whose columns the users of PySceneDetect know.
use crate::number::exact;
use crate::record::{Film, Frame, Settings};
use crate::timecode::timecode;
use std::io::{self, Write};

/// Frames are counted from 1. `content_val` is the score, the columns with `delta_` are its components. A frame without
/// a score has no components either, and a frame that was not judged has no ratio: these cells are empty. `cut` is 1
/// for the first frame of each clip but the first. `luma_median` is the median of the frame's luma, by which a light
/// plan has its threshold. It writes line by line: hand it a writer with a buffer.
pub fn write(film: &Film, out: &mut dyn Write) -> io::Result<()> {
    let ratio = ratio_column(&film.settings);
    out.write_all(b"Frame Number,Timecode,Timestamp (us),content_val,delta_hue,delta_sat,delta_lum,delta_edges,")?;
    if let Some(name) = &ratio {
        write!(out, "{name},")?;
    }
    out.write_all(b"cut,luma_median\n")?;
    for (place, frame) in film.frames.iter().enumerate() {
        out.write_all(line(place, frame, ratio.is_some()).as_bytes())?;
    }
    Ok(())
}

/// The name of the column with the ratios, in the detector that has them.
fn ratio_column(settings: &Settings) -> Option<String> {
    match settings {
        Settings::Content(_) => None,
        Settings::Adaptive(options) => Some(format!("adaptive_ratio (w={})", options.window_width)),
    }
}

fn line(place: usize, frame: &Frame, with_ratio: bool) -> String {
    let cell = |value: Option<f64>| value.map(exact).unwrap_or_default();
    let c = &frame.components;
    let [hue, sat, lum, edges] = [c.hue, c.saturation, c.luma, c.edges].map(|value| cell(frame.score.and(Some(value))));
    let ratio = if with_ratio { cell(frame.ratio) + "," } else { String::new() };
    format!(
        "{},{},{},{},{hue},{sat},{lum},{edges},{ratio}{},{}\n",
        place + 1,
        timecode(frame.at),
        frame.at,
        cell(frame.score),
        u8::from(frame.cut),
        frame.median.map(|median| median.to_string()).unwrap_or_default()
    )
}

#[cfg(test)]
mod tests {
    use super::*;
    use crate::report::sample;

    fn written(film: &Film) -> String {
        let mut out = Vec::new();
        write(film, &mut out).unwrap();
        String::from_utf8(out).unwrap()
    }

    #[test]
    fn of_the_content_detector() {
        let lines = "\
Frame Number,Timecode,Timestamp (us),content_val,delta_hue,delta_sat,delta_lum,delta_edges,cut,luma_median
1,00:00:00.000,0,,,,,,0,40
2,00:00:00.033,33367,0.3333333333333333,1.0,0.0,0.0,0.0,0,40
3,00:00:01.500,1500000,85.0,10.5,44.5,200.0,0.0,1,240
4,00:00:01.533,1533400,0.0,0.0,0.0,0.0,0.0,0,240
";
        assert_eq!(written(&sample::content()), lines);
    }

    #[test]
    fn of_the_adaptive_detector() {
        let lines = "\
Frame Number,Timecode,Timestamp (us),content_val,delta_hue,delta_sat,delta_lum,delta_edges,adaptive_ratio (w=3),cut,luma_median
1,00:00:00.000,0,,,,,,,0,40
2,00:00:00.033,33367,0.3333333333333333,1.0,0.0,0.0,0.0,,0,40
3,00:00:01.500,1500000,85.0,10.5,44.5,200.0,0.0,255.0,1,240
4,00:00:01.533,1533400,0.0,0.0,0.0,0.0,0.0,,0,240
";
        assert_eq!(written(&sample::adaptive()), lines);
    }

    #[test]
    fn without_frames() {
        let film = Film { frames: Vec::new(), ..sample::content() };
        assert_eq!(written(&film).lines().count(), 1);
    }

    #[test]
    fn odd_numbers_keep_their_bits() {
        let mut film = sample::content();
        film.frames[2].score = Some(-1e-300);
        film.frames[2].components.hue = f64::from_bits(0x3fd5_5555_5555_5556);
        let text = written(&film);
        let cells: Vec<&str> = text.lines().nth(3).unwrap().split(',').collect();
        assert_eq!(cells[3].parse(), Ok(-1e-300));
        assert_eq!(cells[4].parse::<f64>().unwrap().to_bits(), 0x3fd5_5555_5555_5556);
    }

    #[test]
    fn a_full_disk_is_told() {
        assert!(write(&sample::content(), &mut [0u8; 100].as_mut_slice()).is_err());
    }
}
