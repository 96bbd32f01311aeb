//! Reading and detecting side by side: a thread reads frames ahead, into a few buffers that go to and fro.
use crate::frame::{Fault, Shown, Source};
use std::sync::mpsc::{sync_channel, Receiver, SyncSender};
use std::thread;

/// What the reading thread hands over.
enum Message {
    Frame(Vec<u8>, Shown),
    /// The end of the film, and what was wrong with it.
    End(Option<Fault>),
    Fault(Fault),
}

/// Calls `each` for each frame of the film, in order, while the next ones are being read. At the end of the film it returns
/// its damage.
pub fn each_frame(
    source: Box<dyn Source>,
    mut each: impl FnMut(&[u8], Shown) -> Result<(), Fault>,
) -> Result<Option<Fault>, Fault> {
    let header = source.header();
    let buffers = ahead(header.size.bytes(header.format));
    let (full, filled) = sync_channel(buffers + 1);
    let (empty, emptied) = sync_channel(buffers);
    for _ in 0..buffers {
        // there is room for all of them
        let _ = empty.send(Vec::new());
    }
    thread::Builder::new()
        .name("reader".into())
        .spawn(move || read_ahead(source, emptied, full))
        .map_err(|error| Fault(format!("no thread to read the film: {error}")))?;
    loop {
        match filled.recv() {
            Ok(Message::Frame(pixels, shown)) => {
                each(&pixels, shown)?;
                // the reader is gone if the film has ended
                let _ = empty.send(pixels);
            }
            Ok(Message::End(damage)) => return Ok(damage),
            Ok(Message::Fault(fault)) => return Err(fault),
            Err(_) => return Err(Fault("the thread that reads the film ended early".into())),
        }
    }
}

/// How many frames are read ahead: about 32 MB of them, at least 2 and at most 16.
fn ahead(bytes: usize) -> usize {
    ((32 << 20) / bytes.max(1)).clamp(2, 16)
}

/// Fills buffers that come back until the film ends, or nobody wants the frames any more.
fn read_ahead(mut source: Box<dyn Source>, emptied: Receiver<Vec<u8>>, full: SyncSender<Message>) {
    while let Ok(mut pixels) = emptied.recv() {
        let message = match source.read(&mut pixels) {
            Ok(Some(shown)) => Message::Frame(pixels, shown),
            Ok(None) => Message::End(source.damage()),
            Err(fault) => Message::Fault(fault),
        };
        let more = matches!(message, Message::Frame(..));
        if full.send(message).is_err() || !more {
            return;
        }
    }
}

#[cfg(test)]
mod tests {
    use super::*;
    use crate::frame::{Format, Header, Size};
    use std::time::Duration;

    /// A film whose frames are their number, and which ends in a fault or not.
    struct Count {
        next: u8,
        frames: u8,
        fault: bool,
    }

    impl Source for Count {
        fn header(&self) -> Header {
            Header { size: Size { width: 2, height: 1 }, format: Format::Gray, length: None }
        }

        fn read(&mut self, pixels: &mut Vec<u8>) -> Result<Option<Shown>, Fault> {
            if self.next == self.frames {
                return if self.fault { Err(Fault("torn".into())) } else { Ok(None) };
            }
            pixels.clear();
            pixels.extend([self.next, self.next]);
            self.next += 1;
            Ok(Some(Shown { at: i64::from(self.next), until: None }))
        }

        fn damage(&self) -> Option<Fault> {
            Some(Fault("worn".into()))
        }
    }

    /// A film that tells of each frame that is read.
    struct Telling(Count, SyncSender<u8>);

    impl Source for Telling {
        fn header(&self) -> Header {
            self.0.header()
        }

        fn read(&mut self, pixels: &mut Vec<u8>) -> Result<Option<Shown>, Fault> {
            let read = self.0.read(pixels);
            self.1.send(self.0.next).map_err(|_| Fault("nobody listens".into()))?;
            read
        }
    }

    #[test]
    fn the_next_frames_are_read_while_one_is_judged() {
        let (sender, read) = sync_channel(100);
        let film = Telling(Count { next: 0, frames: 5, fault: false }, sender);
        let mut first = true;
        let ended = each_frame(Box::new(film), |_, _| {
            // the first frame is not done with before all five were read
            while first && read.recv_timeout(Duration::from_secs(20)).map_err(|_| Fault("too late".into()))? < 5 {}
            first = false;
            Ok(())
        });
        assert_eq!(ended, Ok(None));
    }

    #[test]
    fn each_frame_comes_once_and_in_order() {
        for (frames, fault) in [(0, false), (1, true), (200, false), (200, true)] {
            let mut seen = Vec::new();
            let ended = each_frame(Box::new(Count { next: 0, frames, fault }), |pixels, shown| {
                seen.push((pixels.to_vec(), shown.at));
                Ok(())
            });
            let all: Vec<_> = (0..frames).map(|number| (vec![number; 2], i64::from(number) + 1)).collect();
            assert_eq!(seen, all);
            assert_eq!(ended, if fault { Err(Fault("torn".into())) } else { Ok(Some(Fault("worn".into()))) });
        }
    }

    #[test]
    fn a_fault_of_the_detector_ends_it() {
        let mut count = 0;
        let ended = each_frame(Box::new(Count { next: 0, frames: 200, fault: false }), |_, _| {
            count += 1;
            if count == 3 {
                Err(Fault("full".into()))
            } else {
                Ok(())
            }
        });
        assert_eq!((count, ended), (3, Err(Fault("full".into()))));
    }

    #[test]
    fn few_large_frames_and_more_small_ones_are_read_ahead() {
        assert_eq!([0, 1 << 10, 4 << 20, 48 << 20].map(ahead), [16, 16, 8, 2]);
    }
}
