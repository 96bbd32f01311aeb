//! A child module of content.rs: its private functions, for the driver.

/// The packed plane of an accepted frame.
pub fn copy_plane_into(dst: &mut [u8], src: &[u8], width: u32, height: u32, stride: u32) {
    super::copy_plane(dst, src, width, height, stride);
}

/// The edge plane of a packed luma plane. k is odd and at least 3.
pub fn edge_plane(luma: &[u8], width: u32, height: u32, k: u32) -> Vec<u8> {
    let mut detector = edge_detector(width, height, k);
    edge_plane_again(&mut detector, luma);
    detector.cur_edges
}

/// A detector whose planes have that size.
pub fn edge_detector(width: u32, height: u32, k: u32) -> super::Detector {
    let weights = super::Components::new(0.0, 0.0, 0.0, 1.0);
    let options = super::Options::new().with_weights(weights).with_kernel_size(Some(k)).with_simd(false);
    let mut detector = super::Detector::new(options);
    detector.ensure_buffers(width, height);
    detector
}

/// The edge plane by memory that is there.
pub fn edge_plane_again(detector: &mut super::Detector, luma: &[u8]) {
    detector.cur_v.copy_from_slice(luma);
    detector.compute_edges();
}

pub fn median(luma: &[u8]) -> u8 {
    super::median_u8(luma)
}

pub fn auto_kernel_size(width: u32, height: u32) -> u32 {
    super::auto_kernel_size(width, height)
}

/// The low and the high mark of a median. `compute_edges` works them out inside, so `compare/run` copies these three
/// lines of it into marks.rs, as a block that ends in the pair.
pub fn marks(median: u8) -> (u8, u8) {
    include!("marks.rs")
}

/// Writes the planes of the last accepted frame where the lent store has them; the edge plane with edges on alone.
pub fn store_into(detector: &super::Detector, store: &mut [u8]) {
    let n = detector.width as usize * detector.height as usize;
    let planes = [&detector.prev_h, &detector.prev_s, &detector.prev_v, &detector.prev_edges];
    let count = if detector.edges_enabled { 4 } else { 3 };
    for (i, plane) in planes[..count].iter().enumerate() {
        store[i * n..(i + 1) * n].copy_from_slice(plane);
    }
}

/// The planes that the next frame of this size is held against: those of the last accepted frame of the stretch, with
/// the frame's size. With edges off there is no edge plane.
pub struct Held {
    pub size: (u32, u32),
    pub hue: Vec<u8>,
    pub saturation: Vec<u8>,
    pub value: Vec<u8>,
    pub edges: Option<Vec<u8>>,
}

/// None before the first frame of a stretch.
pub fn held(detector: &super::Detector) -> Option<Held> {
    detector.has_previous.then(|| Held {
        size: size(detector),
        hue: detector.prev_h.clone(),
        saturation: detector.prev_s.clone(),
        value: detector.prev_v.clone(),
        edges: detector.edges_enabled.then(|| detector.prev_edges.clone()),
    })
}

/// Width and height of the last accepted frame.
pub fn size(detector: &super::Detector) -> (u32, u32) {
    (detector.width, detector.height)
}
