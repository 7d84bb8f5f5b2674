//! sklearn and glmnet on the same input, where they are installed: the scripts beside this read the arrays from files and print the seconds of a fit
//! whose largest violation is within the tolerance that is asked of ours.

use crate::cases::Case;
use std::fs::File;
use std::io::{BufWriter, Write};
use std::path::Path;
use std::process::Command;

fn write(folder: &Path, name: &str, bytes: impl Iterator<Item = [u8; 8]>) -> std::io::Result<()> {
    let mut out = BufWriter::new(File::create(folder.join(name))?);
    for number in bytes {
        out.write_all(&number)?;
    }
    out.flush()
}

/// All arrays as doubles; starts and rows are exact in them.
fn hand_over(case: &Case, folder: &Path) -> std::io::Result<()> {
    write(folder, "values", case.values.iter().map(|x| x.to_le_bytes()))?;
    write(folder, "targets", case.targets.iter().map(|x| x.to_le_bytes()))?;
    write(folder, "starts", case.starts.iter().map(|&i| f64::from(i).to_le_bytes()))?;
    write(folder, "rows", case.rows.iter().map(|&i| f64::from(i).to_le_bytes()))
}

/// The seconds that the script's last line says, or none: its interpreter or package is not there, or it did not come so far.
fn ask(program: &str, script: &str, folder: &Path, case: &Case) -> Option<f64> {
    let scripts = std::env::var("BENCH_SCRIPTS").ok()?;
    let output = Command::new(program)
        .arg(Path::new(&scripts).join(script))
        .arg(folder)
        .args([case.n.to_string(), case.p.to_string()])
        .args([case.settings.alpha, case.settings.tolerance].map(|x| format!("{x:e}")))
        .output()
        .ok()?;
    eprint!("{}", String::from_utf8_lossy(&output.stderr));
    let text = String::from_utf8_lossy(&output.stdout).into_owned();
    text.trim().lines().last()?.parse().ok()
}

pub fn times(case: &Case) -> (Option<f64>, Option<f64>) {
    let folder = std::env::temp_dir().join(format!("koyramutey-bench-{}", std::process::id()));
    let handed = std::fs::create_dir_all(&folder).and_then(|()| hand_over(case, &folder));
    let found = match handed {
        Ok(()) => (
            ask("/usr/bin/python3", "with_sklearn.py", &folder, case),
            ask("Rscript", "with_glmnet.R", &folder, case),
        ),
        Err(_) => (None, None),
    };
    std::fs::remove_dir_all(&folder).ok();
    found
}
