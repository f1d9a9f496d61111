//! What the measurements ran on.
use std::fs;
use std::process::Command;

/// The kind of machine, its processor where it is told, how many there are, and the load.
pub fn describe() -> String {
    let kind = std::env::consts::ARCH;
    let cores = std::thread::available_parallelism().map_or(0, usize::from);
    let load = fs::read_to_string("/proc/loadavg").unwrap_or_default();
    let load = load.split(' ').next().unwrap_or("unknown");
    format!("{kind}, {}, {cores} cores, load {load}", processor())
}

fn processor() -> String {
    let told = fs::read_to_string("/proc/cpuinfo").unwrap_or_default();
    field(&told, "model name")
        .or_else(|| {
            let listed = Command::new("lscpu").output().ok()?;
            field(&String::from_utf8_lossy(&listed.stdout), "Model name")
        })
        .unwrap_or_else(|| "processor not told".to_string())
}

/// The value behind a name and a colon.
fn field(text: &str, name: &str) -> Option<String> {
    let line = text.lines().find(|line| line.starts_with(name))?;
    Some(line.split_once(':')?.1.trim().to_string())
}
