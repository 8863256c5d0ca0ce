//! `nidskalm`: looks at a load, plans a split of it, draws it. README.md has the form of its files.
mod cycle;
mod file;
mod planning;
mod report;

use file::Source;
use nidskalm::{MoveGraph, Refusal};
use planning::Progress;
use std::io::{IsTerminal, Write};
use std::process::ExitCode;

const HELP: &str = "\
nidskalm check FILE                         sizes; whether chunks import each other in a circle, and a shortest one
nidskalm plan FILE [--moves] [--rejections] moves greedily; chunks and edges before and after
nidskalm dot FILE [--after]                 a picture for Graphviz, before or after planning

plan moves each atom that is alone in its chunk into the chunk of a dependent, of a dependency or of a single
entry that wants it, the first that is accepted, until nothing more is. --moves prints the accepted moves,
--rejections the rejected ones.

Whether a graph is cyclic, and whether a move is accepted, is the proved library's verdict. The circle that check
names is looked for by this tool itself, among the edges that the library lists.
FILE is plain text (README.md, \"A file for the tool\"). Exit status: 0; 1 where check finds a cycle; 2 for a bad
file or bad words, with a line that says what is wrong.
";

/// What stops the tool, in words.
struct Failure(String);

/// What is printed, and the exit status.
struct Answer(String, u8);

fn main() -> ExitCode {
    let words: Vec<String> = std::env::args_os().skip(1).map(|word| word.to_string_lossy().into_owned()).collect();
    match answer(&words) {
        // A reader that has seen enough may close its end.
        Ok(Answer(text, status)) => match std::io::stdout().write_all(text.as_bytes()) {
            Err(error) if error.kind() != std::io::ErrorKind::BrokenPipe => failed(&error.to_string()),
            _ => ExitCode::from(status),
        },
        Err(Failure(what)) => failed(&what),
    }
}

fn failed(what: &str) -> ExitCode {
    eprintln!("{what}");
    ExitCode::from(2)
}

fn answer(words: &[String]) -> Result<Answer, Failure> {
    let words: Vec<&str> = words.iter().map(String::as_str).collect();
    let (command, path, options) = match words[..] {
        ["help" | "-h" | "--help"] => return Ok(Answer(HELP.into(), 0)),
        [command, path, ref options @ ..] => (command, path, options),
        _ => return Err(Failure(format!("a command and a file are called for\n\n{HELP}"))),
    };
    let known: &[&str] = match command {
        "check" => &[],
        "plan" => &["--moves", "--rejections"],
        "dot" => &["--after"],
        _ => return Err(Failure(format!("`{command}` is no command\n\n{HELP}"))),
    };
    if let Some(odd) = options.iter().find(|option| !known.contains(option)) {
        return Err(Failure(format!("`{odd}` is no option of {command}\n\n{HELP}")));
    }
    let source = read(path)?;
    let given = |option: &str| options.contains(&option);
    let answered = match command {
        "check" => check(&source),
        "plan" => plan(&source, given("--moves"), given("--rejections")),
        _ => dot(&source, given("--after")),
    };
    answered.map_err(|refusal| Failure(format!("{path}: {refusal}")))
}

fn read(path: &str) -> Result<Source, Failure> {
    let bytes = std::fs::read(path).map_err(|error| Failure(format!("{path}: {error}")))?;
    let text = String::from_utf8(bytes).map_err(|error| {
        let line =
            1 + error.as_bytes()[..error.utf8_error().valid_up_to()].iter().filter(|&&byte| byte == b'\n').count();
        Failure(format!("{path}:{line}: not UTF-8 text"))
    })?;
    Source::read(&text).map_err(|fault| Failure(format!("{path}:{}: {}", fault.line, fault.what)))
}

/// The loaded graph, with the least room for sets that the library asks for.
fn load(source: &Source) -> Result<MoveGraph<'static>, Refusal> {
    MoveGraph::owning(source.load(), source.atoms.len() as u64 + 1, &source.sets())
}

fn check(source: &Source) -> Result<Answer, Refusal> {
    let graph = load(source)?;
    let mut text = format!("{}\n{}\n", report::sizes(source), report::graph(&graph)?);
    if !graph.is_acyclic() {
        text += &report::cycle(source, &graph)?;
    }
    Ok(Answer(text, u8::from(!graph.is_acyclic())))
}

fn plan(source: &Source, moves: bool, rejections: bool) -> Result<Answer, Refusal> {
    let mut graph = load(source)?;
    let mut lines = vec![report::sizes(source), format!("before: {}", report::graph(&graph)?)];
    let tried = planned(source, &mut graph)?;
    let asked = tried.iter().filter(|tried| if tried.accepted { moves } else { rejections });
    lines.extend(asked.map(|tried| report::tried(source, tried)));
    lines.push(format!("after: {}", report::graph(&graph)?));
    let accepted = tried.iter().filter(|tried| tried.accepted).count();
    lines.push(format!(
        "{}: {accepted} accepted, {} rejected",
        report::count(tried.len(), "move"),
        tried.len() - accepted
    ));
    Ok(Answer(lines.join("\n") + "\n", 0))
}

fn dot(source: &Source, after: bool) -> Result<Answer, Refusal> {
    let mut graph = load(source)?;
    if after {
        planned(source, &mut graph)?;
    }
    Ok(Answer(report::picture(source, &graph)?, 0))
}

/// Plans, with a progress line where standard error is a terminal.
fn planned(source: &Source, graph: &mut MoveGraph) -> Result<Vec<planning::Tried>, Refusal> {
    let shown = std::io::stderr().is_terminal();
    let tried = planning::plan(source, graph, |Progress { round, atom, tried }| {
        if shown {
            eprint!("\rround {round}: atom {atom} of {}, {}\x1b[K", source.atoms.len(), report::count(tried, "move"));
        }
    });
    if shown {
        eprint!("\r\x1b[K");
    }
    tried
}
