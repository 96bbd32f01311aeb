//! OpenCV's times on a film, by `compare/opencv_time.py`, where there is a Python that has it.
use crate::time::ROUNDS;
use crate::time_calls::kernels;
use crate::time_film::Film;
use std::collections::HashMap;
use std::path::{Path, PathBuf};
use std::process::{Command, Output};

/// The Pythons that are tried: Debian's is the first.
const PYTHONS: [&str; 2] = ["/usr/bin/python3", "python3"];

/// Nanoseconds per pixel, by the name of a call or of a stage.
pub type Times = HashMap<String, f64>;

pub struct OpenCv {
    pub python: &'static str,
    pub version: String,
    script: PathBuf,
    /// Where the frames of a film are written.
    file: PathBuf,
}

fn text(output: Output) -> String {
    String::from_utf8_lossy(&output.stdout).into_owned()
}

impl OpenCv {
    /// None where no Python imports it.
    pub fn found(root: &Path) -> Option<Self> {
        let version = |python: &&'static str| {
            let output = Command::new(python).args(["-c", "import cv2; print(cv2.__version__)"]).output().ok()?;
            output.status.success().then(|| (*python, text(output).trim().to_string()))
        };
        let (python, version) = PYTHONS.iter().find_map(version)?;
        let script = root.join("compare/opencv_time.py");
        Some(OpenCv { python, version, script, file: root.join("target/compare/film.bgr") })
    }

    /// The least of as many runs of the script as the other times have rounds.
    pub fn times(&self, film: &Film) -> Times {
        let mut least = self.round(film);
        for _ in 1..ROUNDS {
            for (name, time) in self.round(film) {
                least.entry(name).and_modify(|before| *before = before.min(time));
            }
        }
        least
    }

    fn round(&self, film: &Film) -> Times {
        std::fs::write(&self.file, film.frames.concat()).unwrap_or_else(|e| panic!("{}: {e}", self.file.display()));
        let numbers = [film.width, film.height].into_iter().chain(kernels(film)).map(|number| number.to_string());
        let output = Command::new(self.python).arg(&self.script).arg(&self.file).args(numbers).output();
        let output = output.unwrap_or_else(|e| panic!("{}: {e}", self.python));
        assert!(output.status.success(), "{}", String::from_utf8_lossy(&output.stderr));
        let time = |line: &str| {
            let (name, time) = line.rsplit_once(' ')?;
            Some((name.to_string(), time.parse().ok()?))
        };
        text(output).lines().map(|line| time(line).unwrap_or_else(|| panic!("no time: {line}"))).collect()
    }
}
