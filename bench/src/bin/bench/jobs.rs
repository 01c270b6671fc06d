//! Jobs as files, for the programs that are run on them.

use std::fs;
use std::io;
use std::path::PathBuf;

use bench::rules::Rule;

/// A directory of its own for the jobs of a run, which goes when this is dropped.
pub struct Jobs {
    directory: PathBuf,
}

impl Jobs {
    pub fn new() -> io::Result<Jobs> {
        let name = format!("wuzlevor_bench_{}", std::process::id());
        let directory = std::env::temp_dir().join(name);
        fs::create_dir_all(&directory)?;
        Ok(Jobs { directory })
    }

    /// Writes the job of a rule on n events, one a second; the file holds one job at a time.
    pub fn write(&self, rule: &Rule, n: usize) -> io::Result<PathBuf> {
        let mut job = format!("R\t{}\n", rule.text);
        for (second, letter) in (rule.word)(n).iter().enumerate() {
            job += &format!("E\t{second}\t{}\n", char::from(*letter));
        }
        let path = self.directory.join("job");
        fs::write(&path, job)?;
        Ok(path)
    }
}

impl Drop for Jobs {
    fn drop(&mut self) {
        // What cannot be removed from the temporary directory stays there.
        let _ = fs::remove_dir_all(&self.directory);
    }
}
