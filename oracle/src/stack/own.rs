//! A stack of the run's own, below it a page that nobody may touch. It is painted, so that what a call has touched can be seen.

use std::arch::naked_asm;
use std::ffi::c_void;

unsafe extern "C" {
    fn mmap(at: *mut c_void, size: usize, may: i32, how: i32, file: i32, from: i64) -> *mut c_void;
    fn mprotect(at: *mut c_void, size: usize, may: i32) -> i32;
    fn fork() -> i32;
    fn waitpid(child: i32, status: *mut i32, options: i32) -> i32;
    fn _exit(status: i32) -> !;
}

/// The stack grows by this much: it begins at a multiple of it.
pub const STEP: usize = 16;
/// Room for the page that nobody may touch, on machines with large pages too.
const GUARD: usize = 0x1_0000;
const READ_WRITE: i32 = 3;
const PRIVATE_ANONYMOUS: i32 = 0x22;
const PAINT: u64 = 0x9e37_79b9_7f4a_7c15;

/// How many words an export takes at the most.
pub const WORDS: usize = 10;

/// A call of an export: what it takes, as the System V ABI hands it over. Six words go into registers, and two onto the stack; the last two
/// go there too where it takes more than eight.
#[repr(C)]
pub struct Call {
    pub export: *const (),
    pub words: [u64; WORDS],
    pub floats: [f64; 2],
    pub takes_more: bool,
}

pub struct Stack {
    bottom: *mut u8,
    size: usize,
}

impl Stack {
    pub fn new(size: usize) -> Self {
        let all = unsafe {
            let nowhere = std::ptr::null_mut();
            let all = mmap(nowhere, GUARD + size, READ_WRITE, PRIVATE_ANONYMOUS, -1, 0);
            assert!(all as isize != -1 && mprotect(all, GUARD, 0) == 0, "memory for a stack");
            all.cast::<u8>()
        };
        let mut stack = Self { bottom: unsafe { all.add(GUARD) }, size };
        stack.words().fill(PAINT);
        stack
    }

    fn words(&mut self) -> &mut [u64] {
        unsafe { std::slice::from_raw_parts_mut(self.bottom.cast(), self.size / 8) }
    }

    /// Calls, and tells how many bytes of stack that took, from where the call began down to the last byte that was touched.
    /// What is handed over on the stack and the return address count.
    pub fn need(&mut self, call: &Call) -> usize {
        unsafe { on(self.bottom.add(self.size), call) };
        let words = self.words();
        let touched = words.iter().position(|&word| word != PAINT).expect("a return address");
        words[touched..].fill(PAINT);
        (self.size - 8 * touched).next_multiple_of(STEP)
    }

    /// Whether the call comes back where the stack has so many bytes: tried in a child.
    pub fn suffices(&self, bytes: usize, call: &Call) -> bool {
        assert!(bytes <= self.size && bytes.is_multiple_of(STEP));
        let mut status = -1;
        unsafe {
            let child = fork();
            if child == 0 {
                on(self.bottom.add(bytes), call);
                _exit(0);
            }
            assert!(child > 0 && waitpid(child, &mut status, 0) == child, "a child");
        }
        status == 0
    }
}

/// Calls on the stack that begins at `top`.
#[unsafe(naked)]
unsafe extern "C" fn on(top: *mut u8, call: *const Call) {
    naked_asm!(
        "push rbp",
        "mov rbp, rsp",
        "mov rsp, rdi",
        "mov rax, rsi",
        "cmp byte ptr [rax + 104], 0",
        "je 2f",
        "push qword ptr [rax + 80]",
        "push qword ptr [rax + 72]",
        "2:",
        "push qword ptr [rax + 64]",
        "push qword ptr [rax + 56]",
        "mov rdi, [rax + 8]",
        "mov rsi, [rax + 16]",
        "mov rdx, [rax + 24]",
        "mov rcx, [rax + 32]",
        "mov r8, [rax + 40]",
        "mov r9, [rax + 48]",
        "movsd xmm0, [rax + 88]",
        "movsd xmm1, [rax + 96]",
        "call [rax]",
        "mov rsp, rbp",
        "pop rbp",
        "ret",
    )
}

#[cfg(test)]
mod tests {
    use super::*;
    use std::hint::black_box;

    /// Takes a thousand words of stack, at the least.
    extern "C" fn deep(seed: u64) -> u64 {
        let mut words = [seed; 1000];
        black_box(&mut words);
        words[seed as usize % 1000]
    }

    fn call(export: extern "C" fn(u64) -> u64) -> Call {
        Call { export: export as *const (), words: [7; WORDS], floats: [0.0; 2], takes_more: false }
    }

    #[test]
    fn a_need_is_seen_and_is_exact() {
        let mut stack = Stack::new(0x1_0000);
        let need = stack.need(&call(deep));
        assert!((8000..9000).contains(&need), "{need}");
        assert_eq!(stack.need(&call(deep)), need);
        assert!(stack.suffices(need, &call(deep)) && !stack.suffices(need - STEP, &call(deep)));
    }

    /// All ten words and two floats arrive.
    #[test]
    fn a_call_gets_what_it_takes() {
        static SEEN: std::sync::Mutex<Vec<u64>> = std::sync::Mutex::new(Vec::new());
        #[allow(clippy::too_many_arguments)]
        extern "C" fn seen(
            a: u64,
            b: u64,
            c: u64,
            d: u64,
            x: f64,
            y: f64,
            e: u64,
            f: u64,
            g: u64,
            h: u64,
            i: u64,
            j: u64,
        ) {
            let all = [a, b, c, d, e, f, g, h, i, j, x as u64, y as u64];
            SEEN.lock().unwrap().extend(all);
        }
        let words = [1, 2, 3, 4, 5, 6, 7, 8, 9, 10];
        let (export, floats) = (seen as *const (), [11.0, 12.0]);
        Stack::new(0x1_0000).need(&Call { export, words, floats, takes_more: true });
        assert_eq!(*SEEN.lock().unwrap(), (1..=12).collect::<Vec<u64>>());
    }
}
