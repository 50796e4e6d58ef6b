//! The kind of machine.

use crate::date;
use std::fs;

pub fn print() {
    let info = fs::read_to_string("/proc/cpuinfo").unwrap_or_default();
    let processors = info
        .lines()
        .filter(|line| line.starts_with("processor"))
        .count();
    println!("# Benchmark");
    println!();
    println!("Date: {}", date::now());
    println!(
        "Machine: {}, {processors} processors; {}; {} of memory",
        field(&info, "model name"),
        caches(),
        memory()
    );
    println!("Load averages at the end of the run: {}", load());
    println!();
}

/// The text after the colon in the first line that begins with `name`.
fn field(text: &str, name: &str) -> String {
    let line = text.lines().find(|line| line.starts_with(name));
    let value = line.and_then(|line| line.split_once(':'));
    value.map_or("unknown".to_string(), |(_, value)| value.trim().to_string())
}

fn caches() -> String {
    let folder = "/sys/devices/system/cpu/cpu0/cache";
    let part = |i: u32, name: &str| {
        let text = fs::read_to_string(format!("{folder}/index{i}/{name}")).ok()?;
        Some(text.trim().to_string())
    };
    let cache = |i| {
        let (level, kind, size) = (part(i, "level")?, part(i, "type")?, part(i, "size")?);
        Some(format!("L{level} {} {size}", kind.to_lowercase()))
    };
    let caches: Vec<String> = (0..8).map_while(cache).collect();
    format!("caches {}", caches.join(", "))
}

fn memory() -> String {
    let info = fs::read_to_string("/proc/meminfo").unwrap_or_default();
    field(&info, "MemTotal")
}

/// The load of the last minute, five and fifteen.
fn load() -> String {
    let text = fs::read_to_string("/proc/loadavg").unwrap_or_default();
    let loads: Vec<&str> = text.split(' ').take(3).collect();
    loads.join(", ")
}
