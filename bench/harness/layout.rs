//! Where the linker puts the code. So many bytes stand before both sides, since the place of a loop within a cache line
//! moves its time by several percent; the harness is built in four layouts, and each side's best counts.

/// The bytes that the build asks for: 0, 16, 32 or 48.
pub const BYTES: &str = env!("LAYOUT");

const fn number(digits: &[u8]) -> usize {
    let (mut number, mut at) = (0, 0);
    while at < digits.len() {
        number = 10 * number + (digits[at] - b'0') as usize;
        at += 1;
    }
    number
}

std::arch::global_asm!(
    ".section .text.layout,\"ax\",@progbits",
    ".globl bench_layout",
    "bench_layout:",
    ".skip {bytes}",
    ".text",
    bytes = const 64 + number(BYTES.as_bytes()),
);

extern "C" {
    fn bench_layout();
}

#[used]
static KEPT: unsafe extern "C" fn() = bench_layout;
