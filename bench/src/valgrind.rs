//! Runs of programs under valgrind.

use std::fs::File;
use std::io::{BufRead, BufReader};
use std::path::Path;
use std::process::{Command, Output};

/// What a program under valgrind puts out; where it fails, all that was said.
pub fn run(options: &[&str], program: &Path, words: &[&str]) -> Result<Output, String> {
    let output = Command::new("valgrind")
        .args(options)
        .arg(program)
        .args(words)
        .output()
        .map_err(|why| format!("valgrind: {why}"))?;
    let said = String::from_utf8_lossy(&output.stderr);
    match output.status.success() {
        true => Ok(output),
        false => Err(format!(
            "valgrind {} {} {}: {}\n{said}",
            options.join(" "),
            program.display(),
            words.join(" "),
            output.status
        )),
    }
}

/// What valgrind itself says in a trace, where there is one: it is also where it says why a program ended.
pub fn said_in(trace: &Path) -> String {
    let Ok(trace) = File::open(trace) else {
        return String::new();
    };
    let lines = BufReader::new(trace).lines().map_while(Result::ok);
    let said = lines.filter(|line| line.starts_with("=="));
    said.collect::<Vec<String>>().join("\n")
}

#[cfg(test)]
mod tests {
    use super::said_in;
    use std::env::temp_dir;
    use std::fs::{remove_file, write};
    use std::path::Path;

    #[test]
    fn what_valgrind_says_is_told_from_its_trace() {
        let file = temp_dir().join(format!("harpginger-trace-{}", std::process::id()));
        write(
            &file,
            "==7== One\n L 00001000,1\nI  00001000,2\n==7== Two\n",
        )
        .expect("a file");
        assert_eq!(said_in(&file), "==7== One\n==7== Two");
        remove_file(&file).expect("a file");
        assert_eq!(said_in(Path::new("no such file")), "");
    }
}
