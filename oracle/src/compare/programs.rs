//! Runs our replay on cases, through files in a folder that the caller removes.

use std::ffi::OsString;
use std::fs::{self, File};
use std::path::PathBuf;
use std::process::Command;

/// The program, the folder for files, and the words that it is run with: a loader, and on machines
/// other than its own an emulator.
pub struct Programs {
    pub program: PathBuf,
    pub room: PathBuf,
    pub before: Vec<OsString>,
}

impl Programs {
    fn command(&self, name: &str) -> Command {
        let program = self.program.clone().into_os_string();
        let mut words = self.before.iter().chain([&program]);
        let mut command = Command::new(words.next().expect("a program at least"));
        command.args(words).arg(name);
        command
    }

    /// What the program writes for this sort of cases.
    pub fn run(&self, name: &str, input: &[u8]) -> Result<String, String> {
        let fault = |error| format!("cannot run {name}: {error}");
        let (given, wrote) = (self.room.join("given"), self.room.join("wrote"));
        fs::write(&given, input).map_err(fault)?;
        let status = self
            .command(name)
            .stdin(File::open(&given).map_err(fault)?)
            .stdout(File::create(&wrote).map_err(fault)?)
            .status()
            .map_err(fault)?;
        let text = fs::read_to_string(&wrote).map_err(fault)?;
        if !status.success() {
            let lines = text.lines().count();
            return Err(format!("{name}: {status}, after {lines} lines"));
        }
        Ok(text)
    }
}
