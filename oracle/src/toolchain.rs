//! What this oracle was built with and runs on, and the one property of it that the answers need.

use std::hint::black_box;
use std::process::ExitCode;

/// Print compiler, target and processor.
pub fn print() {
    for line in env!("ORACLE_RUSTC").split('|') {
        println!("toolchain {line}");
    }
    println!("toolchain target: {}", env!("ORACLE_TARGET"));
    println!("toolchain target features: {}", env!("ORACLE_FEATURES"));
    println!("toolchain optimisation: {}", env!("ORACLE_OPT_LEVEL"));
    println!("toolchain processor: {}", processor());
}

/// The compiler's own line about itself.
pub fn rustc() -> &'static str {
    env!("ORACLE_RUSTC").split('|').next().unwrap_or_default()
}

/// The architecture, and the processor as the system names it.
pub fn processor() -> String {
    let architecture = std::env::consts::ARCH;
    let text = std::fs::read_to_string("/proc/cpuinfo").unwrap_or_default();
    let value = |name: &str| {
        text.lines()
            .filter_map(|line| line.split_once(':'))
            .find(|(key, _)| key.trim() == name)
            .map(|(_, value)| value.trim().to_string())
    };
    if let Some(name) = value("model name") {
        return format!("{architecture}, {name}");
    }
    // ARM's list gives numbers in place of a name.
    match (value("CPU implementer"), value("CPU part")) {
        (Some(maker), Some(part)) => format!("{architecture}, implementer {maker}, part {part}"),
        _ => architecture.to_string(),
    }
}

/// Where the toolchain lacks that property, says so and gives the exit code.
pub fn refused(who: &str) -> Option<ExitCode> {
    let why = sums_start_at_negative_zero().err()?;
    eprintln!("{who}: refused: {why}");
    Some(ExitCode::from(3))
}

/// Whether float sums start at negative zero here: the empty one, and that of -0.0 alone.
fn sums_start_at_negative_zero() -> Result<(), String> {
    // Hidden from the optimiser, so that the sums are worked out as the program runs.
    let sum = |list: &[f64]| black_box(list).iter().copied().sum::<f64>();
    judge(sum(&[]), sum(&[-0.0]))
}

fn judge(empty: f64, single: f64) -> Result<(), String> {
    let wanted = (-0.0_f64).to_bits();
    if empty.to_bits() == wanted && single.to_bits() == wanted {
        return Ok(());
    }
    Err(format!(
        "float sums don't start at negative zero on this toolchain: the empty sum has bits {:016x}, \
         the sum of -0.0 has {:016x}. The reference rests on a toolchain where both are {wanted:016x}",
        empty.to_bits(),
        single.to_bits()
    ))
}

#[cfg(test)]
mod tests {
    use super::*;

    #[test]
    fn a_sum_that_starts_at_positive_zero_is_refused() {
        assert!(judge(-0.0, -0.0).is_ok());
        assert!(judge(0.0, 0.0).is_err());
        assert!(judge(-0.0, 0.0).is_err());
    }
}
