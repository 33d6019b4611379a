//! Loads a program and runs it once: prints 42.
//!
//!     rustc examples/c/first.rs -C link-arg=DIR/libbpfspec.a

#[repr(C)]
struct Machine {
    loaded: bool,
    at: *mut u8,
}

#[repr(C)]
struct Refusal {
    kind: u32,
    number: u32,
    place: u64,
}

unsafe extern "C" {
    fn bpfspec_load(machine: *mut Machine, text: *const u8, length: usize, refusal: *mut Refusal) -> i32;
    fn bpfspec_run(machine: *mut Machine, argument: u64, answer: *mut u64) -> i32;
    fn bpfspec_free(machine: *mut Machine);
}

fn main() {
    let text = "maps 1\nmov64 r0, r1\nadd64 r0, 1\nexit\n";
    let mut machine = Machine { loaded: false, at: std::ptr::null_mut() };
    let mut refusal = Refusal { kind: 0, number: 0, place: 0 };
    let mut answer = 0;
    // SAFETY: the pointers are to live values, the handle is empty, and it isn't copied.
    unsafe {
        if bpfspec_load(&mut machine, text.as_ptr(), text.len(), &mut refusal) != 0 {
            let kind = char::from_u32(refusal.kind).unwrap_or('?');
            panic!("refused {kind}{} at {}", refusal.number, refusal.place);
        }
        bpfspec_run(&mut machine, 41, &mut answer);
        bpfspec_free(&mut machine);
    }
    println!("{answer}");
}
