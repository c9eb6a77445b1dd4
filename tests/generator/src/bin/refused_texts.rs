//! `refused_texts FOLDER --seed S --count N`: the texts of a seed's jobs that are refused with an offset or for a guard,
//! and every tenth of the others, each as a file `PLACE-KIND.glp` of the folder.

use std::path::Path;
use std::process::ExitCode;

use generator::options::Options;
use generator::{jobs, Job};

fn main() -> ExitCode {
    match written() {
        Ok(()) => ExitCode::SUCCESS,
        Err(message) => {
            eprintln!("refused_texts: {message}");
            ExitCode::from(2)
        }
    }
}

fn written() -> Result<(), String> {
    let folder = std::env::args().nth(1).ok_or("a folder is needed")?;
    let options = Options::read(std::env::args().skip(2))?;
    for (place, Job { label, text, .. }) in jobs(options.seed, options.count).iter().enumerate() {
        let chosen = reference::read(text).is_err_and(|refusal| matches!(refusal.number, 4 | 5 | 9..=11));
        if chosen || place % 10 == 0 {
            let file = Path::new(&folder).join(format!("{label}.glp"));
            std::fs::write(&file, text).map_err(|error| format!("{}: {error}", file.display()))?;
        }
    }
    Ok(())
}
