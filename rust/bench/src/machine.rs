//! The machine that is measured on, as Linux describes its first processor.

/// What stands behind a key of /proc/cpuinfo.
fn entry<'a>(processors: &'a str, key: &str) -> Option<&'a str> {
    let mut pairs = processors.lines().filter_map(|line| line.split_once(':'));
    pairs.find(|(name, _)| name.trim() == key).map(|(_, text)| text.trim())
}

/// Model, count of processors, and whether they have SHA instructions.
pub fn description() -> String {
    let processors = std::fs::read_to_string("/proc/cpuinfo").unwrap_or_default();
    let [model, family, number] =
        ["model name", "cpu family", "model"].map(|key| entry(&processors, key).unwrap_or("unknown"));
    let count = processors.lines().filter(|line| line.starts_with("processor")).count();
    let has_sha =
        entry(&processors, "flags").is_some_and(|flags| flags.split(' ').any(|flag| flag == "sha_ni"));
    let sha = if has_sha { "with" } else { "without" };
    format!("{model} (family {family}, model {number}), {count} processors, {sha} SHA instructions")
}
