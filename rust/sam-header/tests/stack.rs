//! What each call takes of a painted stack, held to what the header file promises. 16 KiB more are for the thread and for unoptimized Rust around the call.
use sam_header::{binary_in, binary_out, carry_on, faults, judge_merge, tidy, Header, Kind, ProgramNo};
use std::ffi::{c_int, c_void};

extern "C" {
    fn pthread_attr_init(attr: *mut u64) -> c_int;
    fn pthread_attr_setstack(attr: *mut u64, stack: *mut c_void, size: usize) -> c_int;
    fn pthread_create(
        thread: *mut usize,
        attr: *const u64,
        start: extern "C" fn(*mut c_void) -> *mut c_void,
        given: *mut c_void,
    ) -> c_int;
    fn pthread_join(thread: usize, answer: *mut *mut c_void) -> c_int;
}

type Asked = fn(&[u8]) -> bool;
const SIZE: usize = 2 << 20;
const PAINT: u8 = 0xa5;

struct Given<'t> {
    text: &'t [u8],
    asked: Asked,
    good: bool,
}

extern "C" fn start(given: *mut c_void) -> *mut c_void {
    // SAFETY: `taken` hands it over and waits for the thread to end.
    let given = unsafe { &mut *given.cast::<Given>() };
    given.good = (given.asked)(given.text);
    std::ptr::null_mut()
}

/// Bytes of stack that were written in a thread that asks.
fn taken(text: &[u8], asked: Asked) -> usize {
    let mut memory = vec![PAINT; SIZE + 4096];
    let from = memory.as_ptr().align_offset(4096);
    let mut given = Given { text, asked, good: false };
    let (mut attr, mut thread) = ([0u64; 16], 0); // more than any Linux has in its attributes
                                                  // SAFETY: the stack is this vector's, which outlives the thread.
    unsafe {
        assert_eq!(pthread_attr_init(attr.as_mut_ptr()), 0);
        assert_eq!(pthread_attr_setstack(attr.as_mut_ptr(), memory.as_mut_ptr().add(from).cast(), SIZE), 0);
        assert_eq!(pthread_create(&mut thread, attr.as_ptr(), start, (&raw mut given).cast()), 0);
        assert_eq!(pthread_join(thread, std::ptr::null_mut()), 0);
    }
    assert!(given.good);
    SIZE - memory[from..from + SIZE].iter().take_while(|&&b| b == PAINT).count()
}

fn read(text: &[u8]) -> bool {
    Header::read(text).is_ok_and(|header| Header::from_kept(text, header.into_catalogue()).is_ok())
}

fn chains(text: &[u8]) -> bool {
    Header::read(text)
        .is_ok_and(|header| header.chains().is_ok() && header.prune(&[ProgramNo(0)]).is_ok() && header.add(b"x", b"").is_ok())
}

fn asked(text: &[u8]) -> bool {
    Header::read(text).is_ok_and(|header| header.names(["chr1"]).is_ok() && header.find(Kind::Program, b"p1").is_some())
}

#[test]
fn stacks() {
    let programs: String = (0..500).map(|i| format!("@PG\tID:p{i}\tPP:p{}\n", i - 1)).collect();
    let short = [b"@SQ\tSN:chr1\tLN:9\n@PG\tID:p-1\n", programs.as_bytes()].concat();
    let more: String = (2..14_000).map(|i| format!("@SQ\tSN:chr{i:05}\tLN:9\n")).collect(); // more than 256 KiB
    let long = [&short[..], more.as_bytes()].concat();
    let merged: Asked = |text| {
        let all: Vec<u32> = (0..501).collect();
        judge_merge(text, text, text, &all, &all).is_ok()
    };
    let calls: [(&str, Asked, usize, usize); 7] = [
        ("read and check", read, 64, 64),
        ("tidy", |text| tidy(text).is_ok(), 64, 64),
        ("carry on", |text| carry_on(text).is_ok(), 64, 64),
        ("faults", |text| faults(text).is_ok(), 136, 912),
        ("binary", |text| binary_out(text).is_ok_and(|bytes| binary_in(&bytes).is_ok()), 64, 900),
        ("names", asked, 64, 900),
        ("chains", chains, 72, 900),
    ];
    for (name, call, on_short, on_long) in calls.into_iter().chain([("judge_merge", merged, 208, 900)]) {
        for (text, most) in [(&short, on_short), (&long, on_long)] {
            let kib = taken(text, call) / 1024;
            println!("{name}: {kib} KiB of stack on {} bytes, {most} promised", text.len());
            assert!(kib <= most + 16, "{name}: {kib} KiB of stack");
        }
    }
}
