// A store in Rust, through its C functions.
// usage: tour_rs IMAGE
use std::env;
use std::fs;
use std::thread;

#[repr(C)]
struct Handle {
    at: *mut u8,
}

// A hand may go to another thread.
unsafe impl Send for Handle {}

#[repr(C)]
#[derive(Default)]
struct Told {
    value: u64,
    page: u32,
    had: u32,
}

#[repr(C)]
#[derive(Default)]
struct Counts {
    reads: u64,
    writes: u64,
    faults: u64,
    unwritten: u64,
}

const OK: u32 = 0;
const BUSY: u32 = 1;

unsafe extern "C" {
    fn brf_open(bytes: *const u8, len: usize, frames: u32, store: &mut Handle, told: &mut Told) -> u32;
    fn brf_hand_out(store: &mut Handle, hand: &mut Handle) -> u32;
    fn brf_get(hand: &mut Handle, key: u64, rounds: u32, told: &mut Told) -> u32;
    fn brf_put(hand: &mut Handle, key: u64, value: u64, rounds: u32, told: &mut Told) -> u32;
    fn brf_hand_back(hand: &mut Handle) -> u32;
    fn brf_close(store: &mut Handle, image: *mut u8, len: usize, counts: &mut Counts) -> u32;
}

fn nothing() -> Handle {
    Handle { at: std::ptr::null_mut() }
}

// Makes the call until it is answered.
fn answered(mut call: impl FnMut() -> u32) -> u32 {
    loop {
        match call() {
            BUSY => thread::yield_now(),
            answer => return answer,
        }
    }
}

fn main() {
    let name = env::args().nth(1).expect("usage: tour_rs IMAGE");
    let mut image = fs::read(name).expect("the image is read");
    let (mut store, mut told) = (nothing(), Told::default());
    assert_eq!(unsafe { brf_open(image.as_ptr(), image.len(), 64, &mut store, &mut told) }, OK);
    let mut hands: Vec<Handle> = (0..4).map(|_| nothing()).collect();
    for hand in &mut hands {
        assert_eq!(unsafe { brf_hand_out(&mut store, hand) }, OK);
    }
    thread::scope(|scope| {
        for (number, hand) in hands.iter_mut().enumerate() {
            scope.spawn(move || {
                let (key, mut told) = (number as u64, Told::default());
                assert_eq!(answered(|| unsafe { brf_put(hand, key, 10 * key, 1000, &mut told) }), OK);
                assert_eq!(answered(|| unsafe { brf_get(hand, key, 1000, &mut told) }), OK);
                assert_eq!((told.had, told.value), (1, 10 * key));
            });
        }
    });
    for hand in &mut hands {
        assert_eq!(unsafe { brf_hand_back(hand) }, OK);
    }
    let mut counts = Counts::default();
    assert_eq!(unsafe { brf_close(&mut store, image.as_mut_ptr(), image.len(), &mut counts) }, OK);
    assert_eq!(counts.unwritten, 0);
    println!("ok");
}
