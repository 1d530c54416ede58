//! What the figures were taken on.
use std::{fs, thread};

/// What a file of the system says behind a key and a colon, at the first place.
fn behind(file: &str, key: &str) -> Option<String> {
    let text = fs::read_to_string(file).ok()?;
    let line = text.lines().find(|line| line.starts_with(key))?;
    line.split_once(':').map(|(_, value)| value.trim().to_string())
}

/// The processor, its cores, how busy it is, and the compiler of the ordinary side; a part that the system does not tell is said to be unknown.
pub fn describe() -> String {
    let model = behind("/proc/cpuinfo", "model name").unwrap_or_else(|| "an unknown processor".into());
    let cores = thread::available_parallelism().map_or_else(|_| "unknown".into(), |cores| cores.to_string());
    let busy = fs::read_to_string("/proc/loadavg").ok();
    let busy = busy.as_deref().and_then(|text| text.split(' ').next()).unwrap_or("unknown");
    format!("{model}, cores: {cores}, load when the run began: {busy}; ordinary side by {}", env!("BENCH_COMPILER"))
}
