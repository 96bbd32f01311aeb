//! The filter by its rules: a second model, for cuts that the Rust does not give. It follows docs/RULES.md 7 and the
//! Rust's `filter_merge` that it names, and is not made from the proved code.

/// What the filter reads of the settings.
#[derive(Clone, Copy)]
pub struct Rules {
    pub suppress: bool,
    /// The minimum.
    pub least: u64,
    pub initial_cut: bool,
}

/// Whether a stamp is at least so long past another.
pub fn past(stamp: i64, earlier: i64, least: u64) -> bool {
    stamp as i128 - earlier as i128 >= least as i128
}

impl Rules {
    /// The stamp that the distance is counted from before there is a cut.
    pub fn seed(&self, stamp: i64) -> i64 {
        let back = if self.initial_cut { self.least } else { 0 };
        (stamp as i128 - back as i128).max(i64::MIN as i128) as i64
    }
}

/// What the filter holds from frame to frame. A stretch starts with nothing.
#[derive(Clone, Copy, Default)]
pub struct Filter {
    /// The last cut (Suppress), or the last frame above (Merge), or the seed.
    pub last: Option<i64>,
    pub enabled: bool,
    pub triggered: bool,
    pub start: Option<i64>,
}

impl Filter {
    /// A scored frame, and the cut that it makes.
    pub fn step(&mut self, rules: Rules, above: bool, stamp: i64) -> Option<i64> {
        let last = self.last.unwrap_or(rules.seed(stamp));
        let far = past(stamp, last, rules.least);
        self.last = Some(if above && (far || !rules.suppress) { stamp } else { last });
        if rules.suppress {
            return (above && far).then_some(stamp);
        }
        if self.triggered {
            let begun = self.start.expect("a merge that is going on has a start");
            let spans = rules.least == 0 || past(last, begun, rules.least);
            if !far || above || !spans {
                return None;
            }
            self.triggered = false;
            return Some(last);
        }
        if above && far {
            self.enabled = true;
            return Some(stamp);
        }
        if above && self.enabled {
            self.triggered = true;
            self.start = Some(stamp);
        }
        None
    }
}
