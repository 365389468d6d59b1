//! Saved images, such as the benchmark's workloads, run in slices by every judge.

use crate::comparisons::second_runs;
use crate::context::{Context, Failure, Outcome};
use crate::input::Input;
use crate::paper::{self, BUDGET_LIMIT, IMAGE_SIZE};
use crate::report::{print_heading, print_outcome};
use std::io::Read;
use std::path::{Path, PathBuf};
use std::time::Instant;

const SLICES: [u32; 6] = [1, 2, 3, 1024, BUDGET_LIMIT, BUDGET_LIMIT];

/// Runs each image; true if the judges agree on all of them.
pub fn run(files: &[PathBuf]) -> Result<bool, String> {
    let images: Vec<Vec<u8>> = files
        .iter()
        .map(|file| read(file))
        .collect::<Result<_, _>>()?;
    print_heading();
    let mut passed = true;
    for (file, image) in files.iter().zip(images) {
        let name = file.file_stem().unwrap_or_default().to_string_lossy();
        let mut context = Context::new(0, "workloads");
        let start = Instant::now();
        let outcome = in_slices(&mut context, image);
        passed &= print_outcome(&name, &mut context, start, outcome);
    }
    Ok(passed)
}

/// One byte past an image is enough to see that a file is too long for one.
fn read(file: &Path) -> Result<Vec<u8>, String> {
    let explain = |error: std::io::Error| format!("{}: {error}", file.display());
    let opened = std::fs::File::open(file).map_err(explain)?;
    let mut bytes = Vec::new();
    let mut most = opened.take(IMAGE_SIZE as u64 + 1);
    most.read_to_end(&mut bytes).map_err(explain)?;
    match second::open_image(&bytes).0 {
        paper::DONE => Ok(bytes),
        code => Err(format!("{}: refused with {code}", file.display())),
    }
}

fn in_slices(context: &mut Context, image: Vec<u8>) -> Outcome {
    let mut image = image;
    for budget in SLICES {
        let judged = context.check(Input::run_image(image.clone(), budget))?;
        if !judged.plain {
            return Err(Failure::of_harness("the plain core judged nothing"));
        }
        image = second_runs(&image, budget);
    }
    Ok(())
}
