//! Peak memory of a call beyond what this process holds before it, from Linux's own count.

fn kib(field: &str) -> i64 {
    let status = std::fs::read_to_string("/proc/self/status").expect("Linux tells a process's memory");
    let line = status.lines().find(|line| line.starts_with(field)).expect("the field is there");
    line.split_whitespace().nth(1).and_then(|kib| kib.parse().ok()).expect("the field has a number")
}

/// The KiB by which the peak rises in a call.
pub fn peak(call: impl FnOnce()) -> i64 {
    std::fs::write("/proc/self/clear_refs", "5").expect("a process may forget its own peak");
    let before = kib("VmHWM:");
    call();
    kib("VmHWM:") - before
}
