//! The watch: the comparison runs as a process of its own, so that a trap of the part, too, is told with its seed.
//!
//! "No input traps." The comparison notes where it is; when it dies or gives no sign for two minutes, the watch says
//! where that was, and for a round of a seed lets it run once more with every case noted before its call.

use std::env;
use std::io::{BufRead, BufReader};
use std::process::{Child, Command, ExitStatus, Stdio};
use std::sync::mpsc::{channel, Receiver, RecvTimeoutError};
use std::thread;
use std::time::Duration;

/// The argument that makes a process the comparison itself.
pub const WORK: &str = "work";

/// What a line of the comparison begins with when it is a note for the watch alone.
const NOTE: &str = "at ";

/// How long the comparison may go without a sign.
const PATIENCE: Duration = Duration::from_secs(120);

/// Tells the watch where the comparison is.
pub fn note(place: &str) {
    println!("{NOTE}{place}");
}

/// How a comparison ended, and its last note.
struct End {
    status: Option<ExitStatus>,
    place: String,
}

impl End {
    /// The comparison came to an end of its own: all equal, or a difference told.
    fn own_end(&self) -> Option<i32> {
        self.status.and_then(|status| status.code()).filter(|&code| code == 0 || code == 1)
    }
}

/// Runs the comparison and gives its exit code: 0 where all is equal, 1 where anything differs or fails.
pub fn watch(rounds: u64, seed: u64) -> i32 {
    let end = run(&[WORK.into(), rounds.to_string(), seed.to_string()], true);
    if let Some(code) = end.own_end() {
        return code;
    }
    let how = match end.status {
        Some(status) => format!("died ({status})"),
        None => format!("gave no sign for {} seconds", PATIENCE.as_secs()),
    };
    println!("difference: the comparison {how} at {}", end.place);
    if let Some(seed) = end.place.strip_prefix("seed ") {
        let again = run(&[WORK.into(), "1".into(), seed.into(), "noted".into()], false);
        println!("case: {}", again.place);
        println!("repeat with: reference 1 {seed}");
    }
    1
}

fn run(arguments: &[String], shown: bool) -> End {
    let program = env::current_exe().expect("the path of this program");
    let mut child = Command::new(program).args(arguments).stdout(Stdio::piped()).spawn().expect("a process");
    let lines = lines_of(&mut child);
    let mut place = String::from("the beginning");
    loop {
        match lines.recv_timeout(PATIENCE) {
            Ok(line) => match line.strip_prefix(NOTE) {
                Some(note) => place = note.into(),
                None if shown => println!("{line}"),
                None => {}
            },
            Err(RecvTimeoutError::Disconnected) => return End { status: child.wait().ok(), place },
            Err(RecvTimeoutError::Timeout) => {
                let _ = child.kill();
                let _ = child.wait();
                return End { status: None, place };
            }
        }
    }
}

/// The lines that a process writes, as they come.
fn lines_of(child: &mut Child) -> Receiver<String> {
    let output = child.stdout.take().expect("the output of the process");
    let (sender, receiver) = channel();
    thread::spawn(move || {
        for line in BufReader::new(output).lines().map_while(Result::ok) {
            if sender.send(line).is_err() {
                break;
            }
        }
    });
    receiver
}
