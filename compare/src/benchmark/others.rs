//! Other libraries beside ours: Go's html and Node's entities, each in a process of its own, on the texts of the lines where it does the same job.

use crate::clock::Effort;
use crate::texts::{Case, Kind};
use compare::browser::Browser;
use compare::Operation;
use std::fs;
use std::path::Path;
use std::process::{Command, Stdio};

/// The libraries, in the order of the columns.
pub const OTHERS: [&str; 2] = ["Go", "Node"];

/// Medians of the libraries on a line, in nanoseconds per byte; none where a library does another job there.
pub type Medians = [Option<f64>; 2];

/// Returns the library's function that does the job of our copying and borrowing calls on a line, if it has one.
fn function(other: &str, case: &Case) -> Option<&'static str> {
    if !matches!(case.kind, Kind::Copying | Kind::Borrowing) {
        return None;
    }
    match (other, case.operation, case.context) {
        ("Go", Operation::Encode, 4) => Some("EscapeString"),
        ("Go", Operation::Decode | Operation::Browse, 0..=6) => Some("UnescapeString"),
        ("Node", Operation::Encode, 1) => Some("escapeText"),
        ("Node", Operation::Encode, 4) => Some("escapeUTF8"),
        ("Node", Operation::Decode, 0..=6) => Some("decodeHTMLStrict"),
        ("Node", Operation::Browse, _) => Some("decodeHTML"),
        _ => None,
    }
}

/// Times each library on every case that it has a function for. The programs are compare/others.go, built by compare/run, and compare/others.js.
pub fn measure(cases: &[Case], effort: &Effort, root: &str) -> Result<Vec<Medians>, String> {
    let folder = std::env::var("LINTELRYE_OTHERS").map_err(|_| "--others works only through compare/run".to_string())?;
    let mut all = vec![[None; 2]; cases.len()];
    for (column, other) in OTHERS.into_iter().enumerate() {
        let jobs: Vec<(usize, &str)> = cases.iter().enumerate().filter_map(|(i, case)| Some((i, function(other, case)?))).collect();
        if jobs.is_empty() {
            continue;
        }
        println!("{}: {} lines in a process of its own", other, jobs.len());
        let mut program = match other {
            "Go" => Command::new(format!("{}.go", folder)),
            _ => Command::new("node"),
        };
        if other == "Node" {
            program.arg(format!("{}/compare/others.js", root));
        }
        for (i, passed) in run(&mut program, &jobs, cases, effort, Path::new(&folder))? {
            let bytes: usize = cases[i].texts.iter().map(String::len).sum();
            let results = read(&Path::new(&folder).join(format!("{}.out", i)))?;
            if same(&cases[i], &results) {
                all[i][column] = Some(passed / bytes as f64);
            } else {
                println!("{}: {} gives another result", cases[i].name(), other);
            }
        }
    }
    Ok(all)
}

/// Runs a program on its jobs, and returns the number of each with the nanoseconds of a pass.
fn run(program: &mut Command, jobs: &[(usize, &str)], cases: &[Case], effort: &Effort, folder: &Path) -> Result<Vec<(usize, f64)>, String> {
    let failed = |error: std::io::Error| format!("{}: {}", folder.display(), error);
    // Nothing of an earlier run may pass for a result of this one.
    let _ = fs::remove_dir_all(folder);
    fs::create_dir_all(folder).map_err(failed)?;
    let list: String = jobs.iter().map(|(i, function)| format!("{} {}\n", i, function)).collect();
    fs::write(folder.join("jobs"), list).map_err(failed)?;
    for (i, _) in jobs {
        let texts: String = cases[*i].texts.iter().map(|text| format!("{}\n{}", text.len(), text)).collect();
        fs::write(folder.join(i.to_string()), texts).map_err(failed)?;
    }
    let round = effort.round.as_micros().to_string();
    let ran = program.arg(folder).args([effort.rounds.to_string(), round]).stderr(Stdio::inherit()).output();
    let ran = ran.map_err(|error| format!("{:?} cannot be run: {}", program, error))?;
    let printed = String::from_utf8_lossy(&ran.stdout);
    let medians: Vec<(usize, f64)> = printed.lines().filter_map(pair).collect();
    if !ran.status.success() || medians.len() != jobs.len() {
        return Err(format!("{:?} failed", program));
    }
    Ok(medians)
}

/// Reads "NUMBER NANOSECONDS".
fn pair(line: &str) -> Option<(usize, f64)> {
    let (i, time) = line.split_once(' ')?;
    Some((i.parse().ok()?, time.parse().ok()?))
}

/// Returns the results in a file, each after its length and a line end.
fn read(path: &Path) -> Result<Vec<String>, String> {
    let failed = || format!("{} holds no results", path.display());
    let whole = fs::read_to_string(path).map_err(|_| failed())?;
    let (mut all, mut rest) = (Vec::new(), whole.as_str());
    while !rest.is_empty() {
        let (length, behind) = rest.split_once('\n').ok_or_else(failed)?;
        let length: usize = length.parse().map_err(|_| failed())?;
        all.push(behind.get(..length).ok_or_else(failed)?.to_string());
        rest = &behind[length..];
    }
    Ok(all)
}

/// Whether a library did the job of our call, which gives what the line expects: the same bytes. Of encode, where some references are written in another way, as many
/// references, and a browser reads the text from them.
fn same(case: &Case, results: &[String]) -> bool {
    let browser = Browser::new();
    let references = |text: &[u8]| text.iter().filter(|&&byte| byte == b'&').count();
    let one = |(i, result): (usize, &String)| {
        let text = &case.texts[i];
        match case.operation {
            Operation::Encode => browser.read(result, false).0 == *text && references(result.as_bytes()) == references(&case.expected(i, text)),
            Operation::Browse => browser.read(text, false).0 == *result,
            _ => case.expected(i, text) == result.as_bytes(),
        }
    };
    results.len() == case.texts.len() && results.iter().enumerate().all(one)
}
