//! What the report says of the machine.

/// The processor's name as Linux tells it, or, where it has numbers alone, as on Arm, these.
pub fn cpu_model() -> String {
    let info = std::fs::read_to_string("/proc/cpuinfo").unwrap_or_default();
    let said = |what: &str| info.lines().find_map(|line| Some(line.strip_prefix(what)?.trim_start().strip_prefix(':')?.trim()));
    match (said("model name"), said("CPU implementer"), said("CPU part")) {
        (Some(name), _, _) => name.to_string(),
        (None, Some(implementer), Some(part)) => format!("a processor of implementer {implementer}, part {part}"),
        _ => "a processor of unknown name".to_string(),
    }
}
