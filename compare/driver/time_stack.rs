//! The stack that a frame call takes. It is made on a thread whose stack is memory of our own, filled with a pattern: how
//! deep that was written, less how deep it is written where functions that do nothing stand in for the library's.
use crate::station::Functions;
use crate::time_calls::{Detector, adaptive_detector, content_detector};
use crate::time_film::{Film, Kind};
use mawerodu::sys::Answer;
use std::ffi::{c_int, c_void};
use std::ptr;

/// The places of a thread's stack, and what they are filled with.
const PLACES: usize = 1 << 19;
const PATTERN: u64 = 0xA5C3_5A3C_A5C3_5A3C;

/// As much memory as the attributes of a thread take, and more.
type Attributes = [u64; 32];

unsafe extern "C" {
    fn pthread_attr_init(attributes: *mut Attributes) -> c_int;
    fn pthread_attr_setstack(attributes: *mut Attributes, stack: *mut c_void, size: usize) -> c_int;
    fn pthread_attr_destroy(attributes: *mut Attributes) -> c_int;
    fn pthread_create(
        thread: *mut usize,
        attributes: *const Attributes,
        start: extern "C" fn(*mut c_void) -> *mut c_void,
        argument: *mut c_void,
    ) -> c_int;
    fn pthread_join(thread: usize, result: *mut *mut c_void) -> c_int;
}

extern "C" fn no_plane<const N: usize>(
    _: *mut [u64; N],
    _: *mut Answer,
    _: *const u8,
    _: usize,
    _: u32,
    _: u32,
    _: u32,
    _: i64,
    _: *mut u8,
    _: usize,
    _: *mut u8,
    _: usize,
    _: *mut i32,
    _: usize,
) -> u32 {
    0
}

extern "C" fn no_planes<const N: usize>(
    _: *mut [u64; N],
    _: *mut Answer,
    _: *const u8,
    _: usize,
    _: *const u8,
    _: usize,
    _: *const u8,
    _: usize,
    _: u32,
    _: u32,
    _: u32,
    _: i64,
    _: *mut u8,
    _: usize,
    _: *mut u8,
    _: usize,
    _: *mut i32,
    _: usize,
) -> u32 {
    0
}

/// Frame calls that do nothing.
fn idle<const N: usize>(functions: &mut Functions<N>) {
    (functions.luma, functions.bgr, functions.hsv) = (no_plane, no_plane, no_planes);
}

/// What a thread works on.
struct Work<'a, const N: usize> {
    detector: &'a mut Detector<N>,
    film: &'a Film,
    kind: Kind,
}

/// Two frames of a detector. The library panics nowhere, and the driver's panics end it.
extern "C" fn work<const N: usize>(argument: *mut c_void) -> *mut c_void {
    // SAFETY: `depth` hands it its own `Work`, and waits.
    let Work { detector, film, kind } = unsafe { &mut *argument.cast::<Work<N>>() };
    [1, 2].into_iter().for_each(|i| detector.call(*kind, film, i));
    ptr::null_mut()
}

/// How deep the stack of a thread is written that makes these calls, in bytes.
fn depth<const N: usize>(mut given: Work<N>) -> usize {
    let mut stack = vec![PATTERN; PLACES];
    let (mut attributes, mut thread) = ([0; 32], 0);
    // SAFETY: the stack and what the thread works on outlive it, since it is waited for, and nothing else looks at them.
    unsafe {
        assert_eq!(pthread_attr_init(&mut attributes), 0);
        assert_eq!(pthread_attr_setstack(&mut attributes, stack.as_mut_ptr().cast(), 8 * PLACES), 0);
        assert_eq!(pthread_create(&mut thread, &attributes, work::<N>, (&raw mut given).cast()), 0);
        assert_eq!(pthread_join(thread, ptr::null_mut()), 0);
        assert_eq!(pthread_attr_destroy(&mut attributes), 0);
    }
    let kept = stack.iter().take_while(|&&place| place == PATTERN).count();
    assert!(kept > 0, "the stack was too small");
    8 * (PLACES - kept)
}

/// The bytes of stack that a call takes. A frame was taken before, so that the frames are scored.
fn bytes<const N: usize>(mut detector: Detector<N>, film: &Film, kind: Kind) -> usize {
    detector.call(kind, film, 0);
    let taken = depth(Work { detector: &mut detector, film, kind });
    idle(&mut detector.functions);
    taken - depth(Work { detector: &mut detector, film, kind })
}

/// The table of bytes, and the largest.
pub fn print() {
    let film = Film::smooth(640, 480);
    let title = format!("{}, bytes of stack", film.title());
    println!("\n{title:<36} {:>12} {:>12} {:>12} {:>12}", "content", "edges", "adaptive", "edges");
    let mut most = [0; 2];
    for (name, kind) in [("BGR", Kind::Bgr), ("luma", Kind::Luma), ("HSV", Kind::Hsv)] {
        let [a, c] = [false, true].map(|edges| bytes(content_detector(&film, edges, None), &film, kind));
        let [b, d] = [false, true].map(|edges| bytes(adaptive_detector(&film, edges), &film, kind));
        println!("{name:<36} {a:>12} {c:>12} {b:>12} {d:>12}");
        most = [most[0].max(a).max(b), most[1].max(c).max(d)];
    }
    println!("the largest: {} bytes with edges off, {} with edges on", most[0], most[1]);
}
