//! Films in yuv4mpeg2: a header line, then each frame as a line and its planes. Only luma is kept.
use crate::frame::{whole, Fault, Format, Header, Rate, Shown, Size, Source};
use crate::raw::{cut_short, fill, resized, steady, unread};
use std::io::{self, BufRead, BufReader, ErrorKind, Read};

/// What a header line starts with.
const MAGIC: &str = "YUV4MPEG2";
/// What the line of a frame starts with.
const FRAME: &str = "FRAME";
/// The most bytes of a line, with its line feed.
const LONGEST: u64 = 4096;
/// The bytes read ahead: what lines and chroma are taken from. Luma is read straight into its frame but for these.
const AHEAD: usize = 1 << 16;

/// How many chroma samples there are.
#[derive(Clone, Copy, Debug, PartialEq, Eq)]
enum Colour {
    Mono,
    /// One for two columns and two rows.
    C420,
    /// One for two columns.
    C422,
    /// One for each pixel.
    C444,
}

impl Colour {
    /// Those with eight bits a sample and without alpha, by the name that follows `C` in a header.
    fn named(name: &str) -> Option<Colour> {
        match name {
            "mono" => Some(Colour::Mono),
            "420" | "420jpeg" | "420mpeg2" | "420paldv" => Some(Colour::C420),
            "422" => Some(Colour::C422),
            "444" => Some(Colour::C444),
            _ => None,
        }
    }

    /// The bytes of both chroma planes of a frame.
    fn chroma(self, size: Size) -> usize {
        let plane = |width, height| 2 * Size { width, height }.bytes(Format::Gray);
        match self {
            Colour::Mono => 0,
            Colour::C420 => plane(size.width.div_ceil(2), size.height.div_ceil(2)),
            Colour::C422 => plane(size.width.div_ceil(2), size.height),
            Colour::C444 => plane(size.width, size.height),
        }
    }
}

/// What a header line says.
#[derive(Clone, Copy, Debug, PartialEq, Eq)]
struct Stream {
    size: Size,
    colour: Colour,
    rate: Rate,
}

impl Stream {
    /// Reads a header line without its line feed. A rate that is given overrules that of the line.
    fn parse(line: &[u8], given: Option<Rate>) -> Result<Stream, Fault> {
        let line = String::from_utf8_lossy(line);
        let field = |tag: &str| line.split_ascii_whitespace().skip(1).find_map(|word| word.strip_prefix(tag));
        let side = |tag: &str, name: &str| {
            let unreadable = || Fault(format!("the {MAGIC} header has no {name} that can be read ({tag})"));
            field(tag).and_then(whole).ok_or_else(unreadable)
        };
        let size = Size { width: side("W", "width")?, height: side("H", "height")? }.checked()?;
        let sampling = field("XYSCSS=").map(str::to_ascii_lowercase);
        let name = field("C").or(sampling.as_deref()).unwrap_or("420");
        let colour = Colour::named(name).ok_or_else(|| foreign(name))?;
        let rate = given.or_else(|| rate(field("F")?)).ok_or_else(|| {
            Fault(format!("the {MAGIC} header has no frame rate that can be read (F): give one with --rate R"))
        })?;
        Ok(Stream { size, colour, rate })
    }
}

/// Reads `30000:1001`; `None` for `0:0`, which says that the rate is not known.
fn rate(text: &str) -> Option<Rate> {
    let (frames, seconds) = text.split_once(':')?;
    Rate::new(whole(frames)?, whole(seconds)?)
}

/// The fault of a colour space that is not read.
fn foreign(name: &str) -> Fault {
    let name: String = name.chars().filter(|letter| !letter.is_control()).take(40).collect();
    Fault(format!(
        "the colour space C{name} is not read: 4:2:0, 4:2:2, 4:4:4 and mono with 8 bits a sample are \
         (with ffmpeg: -pix_fmt yuv420p)"
    ))
}

/// What a line is, apart from its bytes.
enum Line {
    /// There is none: the input is at its end.
    Missing,
    Whole,
    /// The input ends before a line feed.
    Cut,
    /// There is no line feed in the most bytes of a line.
    Long,
}

/// Reads a line, which is then without its line feed.
fn read_line(input: &mut impl BufRead, line: &mut Vec<u8>) -> io::Result<Line> {
    line.clear();
    let came = input.by_ref().take(LONGEST).read_until(b'\n', line)?;
    if line.last() == Some(&b'\n') {
        line.pop();
        return Ok(Line::Whole);
    }
    Ok(match came as u64 {
        0 => Line::Missing,
        LONGEST => Line::Long,
        _ => Line::Cut,
    })
}

/// Whether the first word of a line is this one.
fn starts(line: &[u8], word: &str) -> bool {
    line.strip_prefix(word.as_bytes()).is_some_and(|rest| matches!(rest.first(), None | Some(b' ')))
}

/// Reads past so many bytes, or to the end of the input, and returns how many came.
fn skip(input: &mut impl BufRead, bytes: usize) -> io::Result<usize> {
    let mut left = bytes;
    while left > 0 {
        let ready = match input.fill_buf() {
            Ok(ready) => ready.len().min(left),
            Err(why) if why.kind() == ErrorKind::Interrupted => continue,
            Err(why) => return Err(why),
        };
        if ready == 0 {
            break;
        }
        input.consume(ready);
        left -= ready;
    }
    Ok(bytes - left)
}

/// A film in yuv4mpeg2.
pub struct Y4m<R> {
    input: BufReader<R>,
    /// The rate that overrules that of a header.
    given: Option<Rate>,
    stream: Stream,
    /// How many frames were read.
    count: u64,
    /// The last line that was read.
    line: Vec<u8>,
}

impl<R: Read + Send> Y4m<R> {
    /// Reads the header. `rate` overrules its rate.
    pub fn open(input: R, rate: Option<Rate>) -> Result<Y4m<R>, Fault> {
        let mut input = BufReader::with_capacity(AHEAD, input);
        let mut line = Vec::new();
        let end = read_line(&mut input, &mut line).map_err(|why| Fault(format!("the input can't be read: {why}")))?;
        match end {
            Line::Missing => return Err(Fault("the input is empty".into())),
            _ if !starts(&line, MAGIC) => {
                let fault = format!(
                    "the input is not yuv4mpeg2: it does not start with {MAGIC} \
                     (with ffmpeg: -f yuv4mpegpipe; for raw frames: --raw WxH --rate R --format bgr24|gray)"
                );
                return Err(Fault(fault));
            }
            Line::Cut => return Err(Fault(format!("the input ends within the {MAGIC} header"))),
            Line::Long => return Err(Fault(format!("the {MAGIC} header is over {LONGEST} bytes"))),
            Line::Whole => {}
        }
        let stream = Stream::parse(&line, rate)?;
        Ok(Y4m { input, given: rate, stream, count: 0, line })
    }

    /// Reads the line of frame `frame`, and headers before it. False at the end of the film.
    fn begin(&mut self, frame: u64) -> Result<bool, Fault> {
        loop {
            let end = read_line(&mut self.input, &mut self.line).map_err(|why| unread(frame, &why))?;
            let known = starts(&self.line, FRAME) || starts(&self.line, MAGIC);
            let begun = [FRAME, MAGIC].iter().any(|word| word.as_bytes().starts_with(&self.line));
            match end {
                Line::Missing => return Ok(false),
                Line::Cut if known || begun => {
                    return Err(Fault(format!("the film ends in the middle of frame {frame}, within its first line")));
                }
                Line::Long if known => {
                    return Err(Fault(format!("the first line of frame {frame} is over {LONGEST} bytes")));
                }
                Line::Whole if starts(&self.line, MAGIC) => self.same(frame)?,
                Line::Whole if known => return Ok(true),
                _ => {
                    let fault = format!(
                        "frame {frame} does not start with {FRAME}: \
                         the film is damaged, or its header does not fit its frames"
                    );
                    return Err(Fault(fault));
                }
            }
        }
    }

    /// Checks that the header before `frame` says what the first one did.
    fn same(&self, frame: u64) -> Result<(), Fault> {
        let next = Stream::parse(&self.line, self.given)
            .map_err(|Fault(why)| Fault(format!("the header before frame {frame}: {why}")))?;
        if next.size != self.stream.size {
            return Err(resized(self.stream.size, next.size, frame));
        }
        if next.colour != self.stream.colour {
            return Err(Fault(format!("the colour space changes at frame {frame}")));
        }
        if next.rate != self.stream.rate {
            return Err(Fault(format!(
                "the frame rate changes at frame {frame}; --rate R sets one for the whole film"
            )));
        }
        Ok(())
    }
}

impl<R: Read + Send> Source for Y4m<R> {
    fn header(&self) -> Header {
        Header { size: self.stream.size, format: Format::Gray, length: None }
    }

    fn read(&mut self, pixels: &mut Vec<u8>) -> Result<Option<Shown>, Fault> {
        let frame = self.count.saturating_add(1);
        if !self.begin(frame)? {
            return Ok(None);
        }
        let Stream { size, colour, rate } = self.stream;
        let (luma, chroma) = (size.bytes(Format::Gray), colour.chroma(size));
        pixels.resize(luma, 0);
        let mut came = fill(&mut self.input, pixels).map_err(|why| unread(frame, &why))?;
        if came == luma {
            came += skip(&mut self.input, chroma).map_err(|why| unread(frame, &why))?;
        }
        if came < luma + chroma {
            return Err(cut_short(frame, came, luma + chroma));
        }
        let shown = steady(rate, self.count);
        self.count = frame;
        Ok(Some(shown))
    }
}

#[cfg(test)]
mod tests {
    use super::*;

    const SIZE: Size = Size { width: 5, height: 3 };
    const LUMA: usize = 15;

    /// A frame: its line, luma that names it, chroma of 255.
    fn frame(number: u8, chroma: usize) -> Vec<u8> {
        [b"FRAME\n".as_slice(), &[number; LUMA], &vec![255; chroma]].concat()
    }

    fn open(film: &[u8]) -> Result<Y4m<&[u8]>, Fault> {
        Y4m::open(film, None)
    }

    /// All frames up to the end or a fault: the first byte of each, and its stamp.
    fn frames(film: &[u8]) -> (Vec<(u8, i64)>, Option<Fault>) {
        let mut y4m = open(film).unwrap();
        let (mut seen, mut pixels) = (Vec::new(), vec![1; 100]);
        loop {
            match y4m.read(&mut pixels) {
                Ok(Some(shown)) => seen.push((pixels[0], shown.at)),
                Ok(None) => return (seen, None),
                Err(fault) => return (seen, Some(fault)),
            }
            assert!(pixels.len() == LUMA && pixels.iter().all(|&byte| byte == pixels[0]));
        }
    }

    fn fault(film: &[u8]) -> String {
        open(film).map(|_| ()).unwrap_err().0
    }

    #[test]
    fn luma_of_each_colour_space() {
        let spaces = [
            ("", 12),
            (" C420", 12),
            (" C420jpeg", 12),
            (" C420mpeg2", 12),
            (" C420paldv", 12),
            (" C422", 18),
            (" C444", 30),
            (" Cmono", 0),
            (" C444 XYSCSS=420JPEG", 30),
            (" XYSCSS=420MPEG2 XCOLORRANGE=LIMITED", 12),
            (" XYSCSS=422", 18),
        ];
        for (space, chroma) in spaces {
            let header = format!("YUV4MPEG2 W5 H3 F50:2 Ip A1:1{space}\n");
            let film = [header.as_bytes(), &frame(7, chroma), &frame(8, chroma), &frame(9, chroma)].concat();
            assert_eq!(frames(&film), (vec![(7, 0), (8, 40_000), (9, 80_000)], None), "{space}");
        }
    }

    #[test]
    fn the_order_of_tags_is_free_and_frames_may_have_some() {
        let film = [b"YUV4MPEG2 Cmono A1:1 H3 F25:1 W5\nFRAME Ip XA=b\n".as_slice(), &[3; LUMA]].concat();
        assert_eq!(frames(&film), (vec![(3, 0)], None));
        let y4m = open(&film).unwrap();
        assert_eq!(y4m.header(), Header { size: SIZE, format: Format::Gray, length: None });
    }

    #[test]
    fn a_frame_lasts_until_the_next() {
        let film = [b"YUV4MPEG2 W5 H3 F30000:1001\n".as_slice(), &frame(7, 12)].concat();
        let shown = open(&film).unwrap().read(&mut Vec::new()).unwrap().unwrap();
        assert_eq!(shown, Shown { at: 0, until: Some(33_367) });
    }

    #[test]
    fn rates() {
        let given = Rate::new(10, 1);
        for header in ["YUV4MPEG2 W5 H3\n", "YUV4MPEG2 W5 H3 F0:0\n", "YUV4MPEG2 W5 H3 F25\n", "YUV4MPEG2 W5 H3 F1:0\n"]
        {
            assert!(fault(header.as_bytes()).contains("--rate R"), "{header}");
            assert!(Y4m::open(header.as_bytes(), given).is_ok());
        }
        let film = [b"YUV4MPEG2 W5 H3 F25:1\n".as_slice(), &frame(1, 12)].concat();
        let shown = Y4m::open(&film[..], given).unwrap().read(&mut Vec::new()).unwrap().unwrap();
        assert_eq!(shown.until, Some(100_000));
    }

    #[test]
    fn headers_that_are_refused_say_why() {
        let long = [b"YUV4MPEG2 W5 H3 X".as_slice(), &[b'x'; 5000]].concat();
        let cases: [(&[u8], &str); 14] = [
            (b"", "empty"),
            (b"RIFF", "--raw"),
            (&[0; 9000], "--raw"),
            (b"YUV4MPEG22 W5 H3 F25:1\n", "--raw"),
            (b"YUV4MPEG2 W5 H3 F25:1", "ends within"),
            (&long, "over 4096"),
            (b"YUV4MPEG2 H3 F25:1\n", "width"),
            (b"YUV4MPEG2 W5 F25:1\n", "height"),
            (b"YUV4MPEG2 W-5 H3 F25:1\n", "width"),
            (b"YUV4MPEG2 W0 H3 F25:1\n", "0x3"),
            (b"YUV4MPEG2 W4097 H3 F25:1\n", "4097x3"),
            (b"YUV4MPEG2 W5 H3 F25:1 C420p10 XYSCSS=420\n", "C420p10"),
            (b"YUV4MPEG2 W5 H3 F25:1 C444alpha\n", "C444alpha"),
            (b"YUV4MPEG2 W5 H3 F25:1 XYSCSS=411\n", "C411"),
        ];
        for (film, part) in cases {
            let fault = fault(film);
            assert!(fault.contains(part) && !fault.contains('\n'), "{fault}");
        }
        assert!(!fault(b"YUV4MPEG2 W5 H3 F25:1 C\x1b[31m\xff\n").contains('\x1b'));
    }

    #[test]
    fn films_one_after_the_other() {
        let film = |header: &str, numbers: [u8; 2]| {
            [header.as_bytes(), b"\n", &frame(numbers[0], 12), &frame(numbers[1], 12)].concat()
        };
        let first = film("YUV4MPEG2 W5 H3 F25:1", [1, 2]);
        let same = film("YUV4MPEG2 F25:1 H3 W5 C420jpeg", [3, 4]);
        let (seen, end) = frames(&[first.clone(), same].concat());
        assert_eq!(seen, [(1, 0), (2, 40_000), (3, 80_000), (4, 120_000)]);
        assert_eq!(end, None);
        let cases = [
            ("YUV4MPEG2 W3 H5 F25:1", "the size changes from 5x3 to 3x5 at frame 3"),
            ("YUV4MPEG2 W5 H3 F25:1 C444", "the colour space changes at frame 3"),
            ("YUV4MPEG2 W5 H3 F30:1", "the frame rate changes at frame 3"),
            ("YUV4MPEG2 W5 F25:1", "the header before frame 3: "),
        ];
        for (header, start) in cases {
            let (seen, end) = frames(&[first.clone(), film(header, [3, 4])].concat());
            assert_eq!(seen, [(1, 0), (2, 40_000)]);
            assert!(end.unwrap().0.starts_with(start), "{header}");
        }
    }

    #[test]
    fn a_film_that_ends_anywhere() {
        let film = [b"YUV4MPEG2 W5 H3 F25:1\n".as_slice(), &frame(1, 12), &frame(2, 12)].concat();
        let second = film.len() - frame(2, 12).len();
        for end in second + 1..film.len() {
            let (seen, fault) = frames(&film[..end]);
            assert_eq!(seen, [(1, 0)]);
            let came = end - second;
            let text = if came < 6 {
                "the film ends in the middle of frame 2, within its first line".into()
            } else {
                format!("the film ends in the middle of frame 2 ({} of 27 bytes)", came - 6)
            };
            assert_eq!(fault, Some(Fault(text)));
        }
        assert_eq!(frames(&film[..second]), (vec![(1, 0)], None));
    }

    #[test]
    fn what_is_no_frame_is_a_fault() {
        let film = [b"YUV4MPEG2 W5 H3 F25:1\n".as_slice(), &frame(1, 12)].concat();
        let long = [b"FRAME X".as_slice(), &[b'x'; 5000]].concat();
        let cases: [&[u8]; 6] = [b"\n", b"FRAMES\n", b"frame\n", b"x", &[0; 5000], &long];
        for more in cases {
            let (seen, fault) = frames(&[&film, more].concat());
            assert_eq!(seen, [(1, 0)]);
            let Fault(fault) = fault.unwrap();
            assert!(fault.contains("frame 2") && !fault.contains("ends"), "{fault}");
        }
    }

    #[test]
    fn planes_over_what_is_read_ahead() {
        let size = Size { width: 401, height: 301 };
        let (luma, chroma) = (size.bytes(Format::Gray), Colour::C420.chroma(size));
        assert_eq!((luma, chroma), (401 * 301, 2 * 201 * 151));
        let plane = |seed: usize| (0..luma).map(|place| (place * seed % 251) as u8).collect::<Vec<u8>>();
        let mut film = b"YUV4MPEG2 W401 H301 F25:1\n".to_vec();
        for seed in 1..4 {
            film.extend([b"FRAME\n".as_slice(), &plane(seed), &vec![255; chroma]].concat());
        }
        let mut y4m = open(&film).unwrap();
        let mut pixels = Vec::new();
        for seed in 1..4 {
            assert!(y4m.read(&mut pixels).unwrap().is_some());
            assert!(pixels == plane(seed), "frame {seed}");
        }
        assert_eq!(y4m.read(&mut pixels), Ok(None));
    }
}
