//! Times the proved program, the second program and the plain program on the
//! same scripts. README.md says how.

mod dice;
mod options;
mod program;
mod rows;
mod sets;
mod table;
mod timing;

use options::{Options, HELP};
use program::Program;
use std::io::{self, Write};
use std::path::{Path, PathBuf};
use std::process::{Command, ExitCode};
use std::{env, fs};
use timing::Cell;

const HEAD: &str = "# Speed

Made by `cargo run --release --offline --manifest-path host/bench/Cargo.toml -- --markdown`; `host/bench/README.md` says how it is
measured and what each script is. Figures are slots a second where nothing else is said. The last column is the proved program's
figure by the plain one's: 1.00 or more means at least as fast.

";

fn main() -> ExitCode {
    let options = match Options::read(env::args().skip(1)) {
        Ok(Some(options)) => options,
        Ok(None) => {
            // A reader that stops early (`| head`) is no error.
            let _ = io::stdout().write_all(HELP.as_bytes());
            return ExitCode::SUCCESS;
        }
        Err(wrong) => {
            eprintln!("bench: {wrong} (bench --help says more)");
            return ExitCode::from(2);
        }
    };
    if !rows::rows().iter().any(|row| options.wants(row)) {
        eprintln!("bench: no row has '{}' in its name", options.only);
        return ExitCode::from(2);
    }
    match bench(&options) {
        Ok(true) => ExitCode::SUCCESS,
        Ok(false) => {
            eprintln!("bench: some answers differ");
            ExitCode::FAILURE
        }
        Err(error) => {
            eprintln!("bench: {error}");
            ExitCode::FAILURE
        }
    }
}

/// The repository, wherever the command is given.
fn root() -> PathBuf {
    let package = Path::new(env!("CARGO_MANIFEST_DIR"));
    package.ancestors().nth(2).unwrap_or(package).to_path_buf()
}

/// Whether all answers were the same.
fn bench(options: &Options) -> io::Result<bool> {
    let programs = programs(options)?;
    let dir = env::temp_dir().join(format!("prettavorn-bench-{}", std::process::id()));
    let mut text = table::head(&programs);
    let mut same = true;
    print!("{text}");
    for row in rows::rows().iter().filter(|row| options.wants(row)) {
        fs::create_dir_all(&dir)?;
        let cells = timing::time_row(row, &programs, options.runs, &dir);
        fs::remove_dir_all(&dir)?;
        let cells = cells?;
        same &= !cells.contains(&Cell::Differs);
        let line = table::line(row, &programs, &cells);
        print!("{line}");
        text += &line;
    }
    if options.markdown {
        write_table(&root().join("docs/SPEED.md"), &text)?;
    }
    Ok(same)
}

/// The new head and table; what stands in the file from its next heading on stays.
fn write_table(path: &Path, table: &str) -> io::Result<()> {
    let was = fs::read_to_string(path).unwrap_or_default();
    let rest = was.find("\n## ").map_or("", |at| &was[at..]);
    fs::write(path, format!("{HEAD}{table}{rest}"))
}

/// Ours first and plain last. One that is not there is left out with a note,
/// but for plain, which the others are measured by.
fn programs(options: &Options) -> io::Result<Vec<Program>> {
    let ours = options.prettavorn.clone();
    let second = options.second.clone().map_or_else(|| built("second"), Ok)?;
    let plain = options.plain.clone().map_or_else(|| built("plain"), Ok)?;
    let program = |name, path, words| Program { name, path, words };
    let mut programs = vec![
        program(
            table::OURS,
            ours.unwrap_or(root().join("crates/prettavorn/out/prettavorn")),
            &[],
        ),
        program("second", second, &[]),
    ];
    if options.pairs {
        programs.push(program("plain --pairs", plain.clone(), &["--pairs"]));
    }
    programs.retain(|program| {
        if !program.is_there() {
            eprintln!("bench: {} is not there and is left out", program.name);
        }
        program.is_there()
    });
    programs.push(program("plain", plain, &[]));
    Ok(programs)
}

/// Builds a package of host/, and says where its program is.
fn built(name: &str) -> io::Result<PathBuf> {
    let package = root().join("host").join(name);
    let cargo = env::var_os("CARGO").unwrap_or("cargo".into());
    let status = Command::new(&cargo)
        .args([
            "build",
            "--release",
            "--offline",
            "--quiet",
            "--manifest-path",
        ])
        .arg(package.join("Cargo.toml"))
        .status()
        .map_err(|why| program::cannot_run(Path::new(&cargo), why))?;
    if !status.success() {
        return Err(io::Error::other(format!("{name} cannot be built")));
    }
    Ok(package.join("target/release").join(name))
}
