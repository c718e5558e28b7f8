//! What the measurement ran on.

pub struct Machine {
    pub processor: String,
    /// The processor under the emulator, where there is one.
    pub emulated_on: Option<String>,
}

impl Machine {
    pub fn here() -> Machine {
        let info = std::fs::read_to_string("/proc/cpuinfo").unwrap_or_default();
        let field = |name: &str| {
            let line = info.lines().find(|line| line.starts_with(name))?;
            line.split(':').nth(1).map(|value| value.trim().to_string())
        };
        // bin/cargo says so where it runs programs under the emulator.
        let emulated_on = std::env::var("EMULATED_ON").ok();
        let processor = match (&emulated_on, field("model name")) {
            (None, Some(name)) => name,
            (None, None) => "not known".to_string(),
            (Some(under), _) => {
                let part = field("CPU part").unwrap_or_else(|| "not known".to_string());
                format!("x86-64 by an emulator (QEMU) on {under}, part {part}")
            }
        };
        Machine {
            processor,
            emulated_on,
        }
    }

    /// What has to be said before any number.
    pub fn warning(&self) -> Option<String> {
        self.emulated_on.as_ref().map(|under| {
            format!(
                "Measured under an emulator on {under}: times under an emulator say little about x86-64. It translates \
                 each instruction, and what is cheap for the processor may be dear there."
            )
        })
    }
}
