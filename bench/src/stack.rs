//! How much stack a call needs: it runs on a painted stack, and the lowest word that it changed tells.
use std::alloc::{alloc, dealloc, Layout};
use std::ffi::c_void;

const SIZE: usize = 4 << 20;
const PAINT: u64 = 0x5ca1_ab1e_0ddb_a11d;

/// At least as large as the attributes of a thread are on any Linux.
type Attributes = [u64; 16];

extern "C" {
    fn pthread_attr_init(attributes: *mut Attributes) -> i32;
    fn pthread_attr_setstack(attributes: *mut Attributes, at: *mut c_void, size: usize) -> i32;
    fn pthread_create(
        thread: *mut usize,
        attributes: *const Attributes,
        run: extern "C" fn(*mut c_void) -> *mut c_void,
        argument: *mut c_void,
    ) -> i32;
    fn pthread_join(thread: usize, value: *mut *mut c_void) -> i32;
}

struct Call<'a> {
    run: &'a mut dyn FnMut(),
    top: usize,
}

extern "C" fn enter(argument: *mut c_void) -> *mut c_void {
    // SAFETY: `used_by` passes its own `Call`, which outlives the thread.
    let call = unsafe { &mut *argument.cast::<Call>() };
    let mark = 0u64;
    call.top = std::hint::black_box(&raw const mark) as usize;
    (call.run)();
    std::ptr::null_mut()
}

/// The bytes of stack that a call uses, from where it is called.
pub fn used_by(mut run: impl FnMut()) -> usize {
    let layout = Layout::from_size_align(SIZE, 4096).expect("a layout of whole pages");
    let words = SIZE / size_of::<u64>();
    // SAFETY: the stack is memory of our own, painted before the thread starts and looked at when it has ended.
    unsafe {
        let base = alloc(layout).cast::<u64>();
        assert!(!base.is_null(), "there is memory for a stack");
        (0..words).for_each(|k| base.add(k).write_volatile(PAINT));
        let top = run_on(base.cast(), &mut run);
        let lowest = (0..words).find(|k| base.add(*k).read_volatile() != PAINT);
        let lowest = base.add(lowest.unwrap_or(words)) as usize;
        dealloc(base.cast(), layout);
        top - lowest
    }
}

/// Runs on a stack and answers where on it the run began.
///
/// # Safety
/// `stack` has `SIZE` bytes that nothing else uses.
unsafe fn run_on(stack: *mut c_void, run: &mut dyn FnMut()) -> usize {
    let mut call = Call { run, top: 0 };
    let (mut attributes, mut thread) = ([0; 16], 0);
    assert_eq!(pthread_attr_init(&mut attributes), 0);
    assert_eq!(pthread_attr_setstack(&mut attributes, stack, SIZE), 0);
    let argument = (&raw mut call).cast();
    assert_eq!(pthread_create(&mut thread, &attributes, enter, argument), 0);
    assert_eq!(pthread_join(thread, std::ptr::null_mut()), 0);
    call.top
}
